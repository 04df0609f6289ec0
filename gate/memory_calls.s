# memcpy, memmove, memset, memcmp and bcmp of the same instructions on every machine: those of a C library go by the processor.
# Eight bytes that are copied or set count as one instruction, a byte that is compared too. gate/instructions links them with
# calls of the archive, and loads them with a program.

    .intel_syntax noprefix
    .text
    .globl memcpy, memmove, memset, memcmp, bcmp

    .type memcpy, @function
memcpy:
    mov rax, rdi
.Lforward:
    mov rcx, rdx
    shr rcx, 3
    rep movsq
    mov ecx, edx
    and ecx, 7
    rep movsb
    ret
    .size memcpy, . - memcpy

    .type memmove, @function
memmove:
    mov rax, rdi
    mov rcx, rdi
    sub rcx, rsi
    cmp rcx, rdx
    jae .Lforward
    lea rdi, [rdi + rdx - 1]
    lea rsi, [rsi + rdx - 1]
    mov rcx, rdx
    std
    rep movsb
    cld
    ret
    .size memmove, . - memmove

    .type memset, @function
memset:
    mov r8, rdi
    movzx eax, sil
    movabs rcx, 0x0101010101010101
    imul rax, rcx
    mov rcx, rdx
    shr rcx, 3
    rep stosq
    mov ecx, edx
    and ecx, 7
    rep stosb
    mov rax, r8
    ret
    .size memset, . - memset

    .type memcmp, @function
    .type bcmp, @function
memcmp:
bcmp:
    xor eax, eax
    mov rcx, rdx
    cmp rcx, rcx
    repe cmpsb
    je .Lequal
    movzx eax, byte ptr [rdi - 1]
    movzx ecx, byte ptr [rsi - 1]
    sub eax, ecx
.Lequal:
    ret
    .size memcmp, . - memcmp
    .size bcmp, . - bcmp

    .section .note.GNU-stack, "", @progbits
