/* Where the parts of a guest lie: text, data, then bss, from address 0. A thread's stack is the kernel's matter. What
 * no line names, a section of a program's own, the linker puts behind the sections of its kind. */
OUTPUT_ARCH(riscv)
ENTRY(_start)

THREAD_NUMBERS = 32; /* the greatest that there is */
DEFAULT_HEAP = 16384; /* of a program that calls malloc, where the build says no other size */

SECTIONS
{
    .text 0 : {
        KEEP(*(.entry))
        *(.text .text.* .gnu.linkonce.t.*)
        . = ALIGN(4);
    }
    .data : {
        *(.rodata .rodata.* .srodata .srodata.* .gnu.linkonce.r.* .data.rel.ro .data.rel.ro.*)
        . = ALIGN(4);
        __no_words = .; /* of main, where the program has none */
        LONG(0);
        __preinit_array_start = .; /* what the libraries set up before anything else */
        KEEP(*(.preinit_array .preinit_array.*))
        __preinit_array_end = .;
        __init_array_start = .; /* behind it, the constructors, by their priorities */
        KEEP(*(SORT_BY_INIT_PRIORITY(.init_array.*) SORT_BY_INIT_PRIORITY(.ctors.*)))
        KEEP(*(.init_array .ctors))
        __init_array_end = .;
        __fini_array_start = .; /* destructors, called from the last to the first */
        KEEP(*(SORT_BY_INIT_PRIORITY(.fini_array.*) SORT_BY_INIT_PRIORITY(.dtors.*)))
        KEEP(*(.fini_array .dtors))
        __fini_array_end = .;
        *(.data .data.* .gnu.linkonce.d.* .sdata .sdata.* .gnu.linkonce.s.*)
    }
    PROVIDE(guest_words = __no_words);
    .tdata : ALIGN(16) { /* the thread-local variables as a thread finds them: each thread has a copy */
        *(.tdata .tdata.* .gnu.linkonce.td.*)
    }
    .tbss : { /* takes no room here */
        *(.tbss .tbss.* .gnu.linkonce.tb.* .tcommon)
    }
    __tls_align = MAX(16, MAX(ALIGNOF(.tdata), ALIGNOF(.tbss)));
    __tls_template = ADDR(.tdata);
    __tls_template_size = SIZEOF(.tdata);
    /* Offsets in a block count from the first of both sections that exists. */
    __tls_size = SIZEOF(.tdata) == 0 ? SIZEOF(.tbss) : ADDR(.tbss) + SIZEOF(.tbss) - ADDR(.tdata);
    __tls_block_size = ALIGN(__tls_size, __tls_align);
    .bss (NOLOAD) : {
        *(.bss .bss.* .sbss .sbss.* .gnu.linkonce.b.* .gnu.linkonce.sb.* COMMON)
        . = ALIGN(__tls_align);
        __tls_blocks = .; /* a block for each thread number, from 1 */
        . += THREAD_NUMBERS * __tls_block_size;
        . = ALIGN(16);
        __heap_start = .;
        . += DEFINED(__heap_size) ? __heap_size : DEFINED(malloc) ? DEFAULT_HEAP : 0;
        __heap_end = .;
    }
    /DISCARD/ : {
        *(.comment .note .note.* .eh_frame .eh_frame.* .riscv.attributes)
    }
}
