/* Memory of the board MPS2 with a Cortex-M3 (AN385), as qemu-system-arm has it. For another board change the two lines of MEMORY to its flash and its RAM,
 * as its data sheet gives them; the rest can stay. */
MEMORY
{
    FLASH (rx) : ORIGIN = 0x00000000, LENGTH = 4M
    RAM (rwx) : ORIGIN = 0x20000000, LENGTH = 4M
}

ENTRY(reset)

SECTIONS
{
    /* The processor reads its first stack pointer and its first instruction from the beginning of the flash. */
    .text : {
        KEEP(*(.vectors))
        *(.text*)
        *(.rodata*)
    } > FLASH

    /* Nothing here is ever thrown, so the tables for it are not kept. */
    /DISCARD/ : { *(.ARM.exidx*) *(.ARM.extab*) }

    /* Variables that begin as something lie in the flash, and the start-up copies them into the RAM. */
    .data : ALIGN(4) {
        data_begins = .;
        *(.data*)
        . = ALIGN(4);
        data_ends = .;
    } > RAM AT > FLASH
    data_in_flash = LOADADDR(.data);

    /* Variables that begin as 0. */
    .bss (NOLOAD) : ALIGN(4) {
        bss_begins = .;
        *(.bss*)
        *(COMMON)
        . = ALIGN(4);
        bss_ends = .;
    } > RAM

    end = .;
    stack_top = ORIGIN(RAM) + LENGTH(RAM);
}
