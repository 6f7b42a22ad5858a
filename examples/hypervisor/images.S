/* The guests' images, as tools/guest makes them. */
    .section .rodata
    .globl  guest_plain, guest_plain_end, guest_compressed, guest_compressed_end
    .balign 8
guest_plain:
    .incbin "guest_plain.bin"
guest_plain_end:
    .balign 8
guest_compressed:
    .incbin "guest_compressed.bin"
guest_compressed_end:
