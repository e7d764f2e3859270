/* The addresses of the makers' registers. docs/REGISTERS.md says what each holds. */
/* Made by tools/registers.py from the sheets and tools/registers.txt. */
#ifndef CEDARSKEIN_REGISTERS_H
#define CEDARSKEIN_REGISTERS_H

/* UX15/25 */
#define CEDARSKEIN_UX_REFERENCE_TEMPERATURE 0x0100 /* signed word; one step is 1 degC */
#define CEDARSKEIN_UX_PULSE_CONSTANT 0x0101 /* word; 0: 1, 1: 10, 2: 100, 3: 1000, 4: 10000 L/pulse */
#define CEDARSKEIN_UX_ALARM_CONTACT 0x0102 /* word; 0: normally open, 1: normally closed */
#define CEDARSKEIN_UX_ALARM_UPPER_LIMIT 0x0103 /* pair; one step is 0.1 m3/h */
#define CEDARSKEIN_UX_ALARM_LOWER_LIMIT 0x0105 /* pair; one step is 0.1 m3/h */
#define CEDARSKEIN_UX_ALARM_HYSTERESIS 0x0107 /* pair; one step is 0.1 m3/h */
#define CEDARSKEIN_UX_FLOW_READINGS_AVERAGED 0x0109 /* word */
#define CEDARSKEIN_UX_ANALOG_FULL_SCALE 0x010A /* pair; one step is 0.1 m3/h */
#define CEDARSKEIN_UX_ANALOG_SOURCE 0x010C /* word; 0: flow, 1: temperature */
#define CEDARSKEIN_UX_BIT_RATE 0x010D /* word; 0: 4800, 1: 9600 bit/s */
#define CEDARSKEIN_UX_STATION 0x010E /* word */
#define CEDARSKEIN_UX_FLOW_CONVERSION 0x010F /* word; 0: none, 1: normal or standard */
#define CEDARSKEIN_UX_GAS_PRESSURE_SETTING 0x0110 /* word; one step is 0.01 kPa gauge */
#define CEDARSKEIN_UX_TEST_MODE_TIME 0x0111 /* word; 0: 3 min, 1: 60 min, 2: no limit */
#define CEDARSKEIN_UX_REFERENCE_PRESSURE 0x0112 /* word; one step is 0.01 kPa gauge */
#define CEDARSKEIN_UX_VOLUME_ALARM_LIMIT 0x0113 /* pair; one step is 0.01 m3 */
#define CEDARSKEIN_UX_ALARM_CHOICE 0x0115 /* word; 0: flow limits, 1: volume limit */
#define CEDARSKEIN_UX_GAS 0x0116 /* word; 0: 13A, 1: propane, 2: butane, 3: nitrogen, 4: air */
#define CEDARSKEIN_UX_FLOW 0x0200 /* signed pair; one step is 0.01 m3/h */
#define CEDARSKEIN_UX_GAS_PRESSURE 0x0202 /* word; one step is 0.01 kPa gauge */
#define CEDARSKEIN_UX_TEMPERATURE 0x0203 /* signed word; one step is 0.1 degC */
#define CEDARSKEIN_UX_TOTAL_VOLUME 0x0204 /* triple; one step is 0.01 m3 */
#define CEDARSKEIN_UX_TRIP_VOLUME 0x0207 /* triple; one step is 0.01 m3 */
#define CEDARSKEIN_UX_ERROR_BITS 0x020A /* word */
#define CEDARSKEIN_UX_VOLUME_ALARM_CLEAR 0x0300 /* function 05 */

/* AS-WE */
#define CEDARSKEIN_ASWE_GAS 0x00FF /* word; 0: air, 1: natural gas */
#define CEDARSKEIN_ASWE_PRESSURE_SETTING_IN_USE 0x0100 /* word; 0: no, 1: yes */
#define CEDARSKEIN_ASWE_PRESSURE_SETTING 0x0101 /* word; one step is 0.1 kPa absolute */
#define CEDARSKEIN_ASWE_PULSE_CONSTANT 0x0102 /* word; 0: 1, 1: 2.5, 2: 4.5, 3: 10, 4: 100, 5: 1000, 6: 10000 L/pulse */
#define CEDARSKEIN_ASWE_FLOW_COMPENSATION 0x0103 /* word; 0: no, 1: yes */
#define CEDARSKEIN_ASWE_PULSE_FLOW 0x0104 /* word; 0: actual, 1: compensated */
#define CEDARSKEIN_ASWE_FLOW_READINGS_AVERAGED 0x0105 /* word */
#define CEDARSKEIN_ASWE_COMPRESSIBILITY_FACTOR 0x0106 /* word; one step is 0.001 */
#define CEDARSKEIN_ASWE_BIT_RATE 0x0107 /* word; 0: 4800, 1: 9600 bit/s */
#define CEDARSKEIN_ASWE_STATION 0x0108 /* word */
#define CEDARSKEIN_ASWE_LOW_FLOW_CUTOFF 0x0109 /* word; one step is 0.1 m3/h */
#define CEDARSKEIN_ASWE_ATMOSPHERIC_PRESSURE 0x010D /* word; one step is 0.1 kPa */
#define CEDARSKEIN_ASWE_YEAR 0x010E /* word */
#define CEDARSKEIN_ASWE_MONTH 0x010F /* word */
#define CEDARSKEIN_ASWE_DAY 0x0110 /* word */
#define CEDARSKEIN_ASWE_HOUR 0x0111 /* word */
#define CEDARSKEIN_ASWE_MINUTE 0x0112 /* word */
#define CEDARSKEIN_ASWE_HISTORY_INTERVAL 0x0113 /* word; one step is 5 min */
#define CEDARSKEIN_ASWE_PULSE_FORM 0x0115 /* word; 0: 1000 ms, 1: 500 ms, 2: 250 ms, 3: 125 ms, 4: 50 ms, 5: on for half the time */
#define CEDARSKEIN_ASWE_PRESSURE_READINGS_AVERAGED 0x0116 /* word */
#define CEDARSKEIN_ASWE_PRESET_VOLUME_UPPER_DIGIT 0x0118 /* word, written and never read; one step is 10000000 m3 */
#define CEDARSKEIN_ASWE_PRESET_VOLUME_MIDDLE_DIGITS 0x0119 /* word, written and never read; one step is 1000 m3 */
#define CEDARSKEIN_ASWE_PRESET_VOLUME_LOWER_DIGITS 0x011A /* word, written and never read; one step is 0.1 m3 */
#define CEDARSKEIN_ASWE_PRESET_SECOND_VOLUME 0x011B /* pair, written and never read; one step is 0.1 m3 */
#define CEDARSKEIN_ASWE_PRESET_REVERSE_VOLUME 0x011D /* pair, written and never read; one step is 0.1 m3 */
#define CEDARSKEIN_ASWE_REFERENCE_TEMPERATURE 0x0123 /* signed word; one step is 0.1 degC */
#define CEDARSKEIN_ASWE_REFERENCE_PRESSURE 0x0124 /* word; one step is 0.01 kPa gauge */
#define CEDARSKEIN_ASWE_ACTUAL_FLOW 0x01FF /* signed pair; one step is 0.01 m3/h */
#define CEDARSKEIN_ASWE_COMPENSATED_FLOW 0x0201 /* signed pair; one step is 0.01 m3/h */
#define CEDARSKEIN_ASWE_PRESSURE 0x0203 /* signed pair; one step is 0.01 kPa absolute */
#define CEDARSKEIN_ASWE_TEMPERATURE 0x0205 /* signed pair; one step is 0.01 degC */
#define CEDARSKEIN_ASWE_FORWARD_ACTUAL_VOLUME 0x0207 /* pair; one step is 0.1 m3 */
#define CEDARSKEIN_ASWE_FORWARD_COMPENSATED_VOLUME 0x0209 /* pair; one step is 0.1 m3 */
#define CEDARSKEIN_ASWE_REVERSE_COMPENSATED_VOLUME 0x020B /* pair; one step is 0.1 m3 */
#define CEDARSKEIN_ASWE_ERROR_BITS 0x020D /* word */
#define CEDARSKEIN_ASWE_SOUND_VELOCITY 0x020E /* word; one step is 0.01 */

#endif
