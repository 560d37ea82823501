# Functions of every shape, each with what tools/stack must say of it: the bytes, or '-' and a word of the reason.
        .macro  shape name
        .globl  \name
        .type   \name, @function
\name:
        .endm
        .macro  ends name
        .size   \name, . - \name
        .endm
        .text
shape returns                           # = 8
        ret
ends returns
shape pushes                            # = 32
        push    %rbx
        push    $5
        pushq   8(%rsp)
        add     $16, %rsp
        pop     %rbx
        ret
ends pushes
shape subtracts                         # = 136
        add     $-128, %rsp
        sub     $-128, %rsp
        ret
ends subtracts
shape leas                              # = 72
        lea     -64(%rsp), %rsp
        lea     64(%rsp), %rsp
        ret
ends leas
shape leaves                            # = 48
        push    %rbp
        mov     %rsp, %rbp
        sub     $32, %rsp
        leave
        ret
ends leaves
shape leaves_twice                      # - returns with
        push    %rbp
        mov     %rsp, %rbp
        sub     $32, %rsp
        leave
        push    %rax
        ret
ends leaves_twice
shape red_zone                          # = 24
        mov     %rax, -16(%rsp)
        ret
ends red_zone
shape red_zone_frame                    # = 80
        push    %rbp
        mov     %rsp, %rbp
        movb    $1, -64(%rbp)
        pop     %rbp
        ret
ends red_zone_frame
shape no_frame                          # = 16
        push    %rbp
        mov     %rsp, %rbp
        mov     %rdi, %rbp
        movb    $1, -64(%rbp)
        pop     %rbp
        ret
ends no_frame
shape red_zone_address                  # = 136
        lea     -8(%rsp), %rax
        ret
ends red_zone_address
shape red_zone_index                    # = 136
        movb    $1, (%rsp,%rcx)
        ret
ends red_zone_index
shape red_zone_read                     # = 136
        mov     %rax, -72(%rsp)
        movzwl  -72(%rsp,%rcx), %eax
        ret
ends red_zone_read
shape frame_index                       # = 144
        push    %rbp
        mov     %rsp, %rbp
        movb    $1, 0(%rbp,%rcx)
        pop     %rbp
        ret
ends frame_index
shape copied                            # = 136
        mov     %rsp, %rax
        movb    $1, -100(%rax)
        ret
ends copied
shape added                             # = 136
        mov     $-100, %rax
        add     %rsp, %rax
        movb    $1, (%rax)
        ret
ends added
shape copied_and_on                     # = 136
        mov     %rsp, %rax
        movb    $1, -100(%rax)
        jmp     calls_one
ends copied_and_on
shape calls_one                         # = 16
        call    returns
        ret
ends calls_one
shape memory                            # = 24
        sub     $8, %rsp
        call    memcpy
        add     $8, %rsp
        ret
ends memory
shape memory_below                      # = 32
        sub     $8, %rsp
        call    memory_calls
        add     $8, %rsp
        ret
ends memory_below
shape memory_calls                      # = 16
        call    memset@PLT
        ret
ends memory_calls
shape memory_left                       # - leaves with
        push    %rax
        jmp     memcpy
ends memory_left
shape two_frames                        # - the stack pointer is changed by
        push    %rbp
        mov     %rsp, %rbp
        test    %rdi, %rdi
        jz      1f
        mov     %rdi, %rbp
1:      mov     %rbp, %rsp
        pop     %rbp
        ret
ends two_frames
shape popped_frame                      # - the stack pointer is changed by
        push    %rbp
        mov     %rsp, %rbp
        pop     %rbp
        push    %rbp
        mov     %rbp, %rsp
        pop     %rbp
        ret
ends popped_frame
shape enters                            # - enter
        enter   $16, $0
        leave
        ret
ends enters
shape words                             # - pushw
        push    %rbp
        mov     %rsp, %rbp
        pushw   $5
        leave
        ret
ends words
shape linked                            # - the linker sets
        sub     $elsewhere, %rsp
        add     $elsewhere, %rsp
        ret
ends linked
shape circles                           # - calls in a circle
        sub     $24, %rsp
        call    circles
        add     $24, %rsp
        ret
ends circles
shape rounds                            # - calls in a circle
        push    %rbx
        call    rounds_back
        pop     %rbx
        ret
ends rounds
shape rounds_back                       # - calls in a circle
        sub     $40, %rsp
        call    rounds
        call    pushes
        add     $40, %rsp
        ret
ends rounds_back
shape tables                            # = 4112
        lea     first_table(%rip), %rdx
        movslq  (%rdx,%rdi,4), %rax
        add     %rdx, %rax
        jmp     *%rax
first_way:
        ret
ends tables
        .section .text.unlikely, "ax", @progbits
        .type   tables.cold, @function
tables.cold:
        sub     $4096, %rsp
        call    returns
        add     $4096, %rsp
        ret
        .size   tables.cold, . - tables.cold
        .section .rodata
        .balign 4
first_table:
        .long   first_way - first_table
        .long   tables.cold - first_table
        .long   first_way - first_table
        .section .note.GNU-stack, "", @progbits
