/* The memory of virt, of which a part stands for flash. */
MEMORY
{
	FLASH (rx) : ORIGIN = 0x80000000, LENGTH = 512K
	RAM (rwx) : ORIGIN = 0x80100000, LENGTH = DEFINED(RAM_SIZE) ? RAM_SIZE : 32K
}

SECTIONS
{
	.text : { KEEP(*(.vectors)) *(.text .text.*) *(.rodata .rodata.* .srodata .srodata.*) . = ALIGN(4); } >FLASH
	.stack (NOLOAD) : { stack_begin = .; . += DEFINED(STACK_SIZE) ? STACK_SIZE : 10K; stack_end = .; } >RAM
	.data : { data_begin = .; *(.data .data.* .sdata .sdata.*) . = ALIGN(4); data_end = .; } >RAM AT>FLASH
	.bss (NOLOAD) : { bss_begin = .; *(.bss .bss.* .sbss .sbss.* COMMON) . = ALIGN(4); bss_end = .; } >RAM
	data_load = LOADADDR(.data);
}
