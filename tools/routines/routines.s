# The run-time routines in their blocks of 64 words, written from docs/closures.md: the argument is in $4, the answer
# goes to $2, the cells stand below $28, and 0x2040 is the upper half of the address of the specification rows.
# `make` beside this file writes what the program `trial_texts` must print of them. GNU as for MIPS gives the words.
        .set noreorder
        .set noat
        .set nomacro

        .macro nothing
        sll $0, $0, 0
        .endm

# a closure more: its four words are in $4, $5, $3 and $7, and the count of its captured words in $6
        .macro append
        lw $2, -8($28)
        sll $6, $6, 2
        addiu $6, $6, 16
        addu $6, $6, $2
        lui $1, 0x2040
        sltu $1, $1, $6
        beq $1, $0, .+12
        nothing
        break 0, 22
        sw $4, 0($2)
        sw $5, 4($2)
        sw $3, 8($2)
        sw $7, 12($2)
        lw $3, -12($28)
        lui $1, 0x2040
        sll $4, $3, 2
        addu $1, $1, $4
        sw $2, 0($1)
        addiu $3, $3, 1
        sw $3, -12($28)
        sw $6, -8($28)
        sw $2, -32($28)
        addu $2, $3, $0
        jr $31
        nothing
        .endm

# a captured number is checked up to its kind, which is in $3
        .macro find
        lw $3, -12($28)
        addiu $2, $4, -1
        sltu $1, $2, $3
        bne $1, $0, .+12
        nothing
        break 0, 18
        sll $2, $2, 2
        lui $1, 0x2040
        addu $2, $2, $1
        lw $2, 0($2)
        nothing
        lw $3, 4($2)
        nothing
        .endm

# and then it is added up
        .macro add_up
        beq $3, $0, .+12
        nothing
        break 0, 18
        lw $5, 8($2)
        lw $7, 12($2)
        lw $6, -24($28)
        lw $3, -28($28)
        addu $5, $5, $6
        sw $5, -24($28)
        sltu $1, $3, $7
        beq $1, $0, .+12
        nothing
        addu $3, $7, $0
        sw $3, -28($28)
        addu $2, $0, $0
        jr $31
        nothing
        .endm

# 1: malloc
        lw $3, -4($28)
        lui $2, 0x10c0
        subu $2, $2, $3
        sltu $1, $2, $4
        addu $2, $0, $0
        bne $1, $0, full
        nothing
        addu $2, $3, $0
        addiu $4, $4, 7
        srl $4, $4, 3
        sll $4, $4, 3
        addu $4, $4, $3
        sw $4, -4($28)
full:
        jr $31
        nothing

# 2: compile
        .org 0x100
        lw $5, -12($28)
        addiu $6, $4, -1
        sltu $6, $6, $5
        beq $6, $0, bad
        sll $12, $4, 2
        lui $1, 0x2040
        addu $12, $12, $1
        lw $12, -4($12)
        lw $7, -16($28)
        lw $5, 4($12)
        lw $6, 8($12)
        sltiu $5, $5, 3
        beq $5, $0, bad
        srl $5, $7, 16
        bne $5, $0, table
        sll $5, $6, 9
        sll $6, $6, 8
        addu $5, $5, $6
        lw $6, -20($28)
        addiu $5, $5, 256
        addu $6, $6, $5
        lui $1, 0x0600
        sltu $1, $1, $6
        bne $1, $0, arena
        lui $15, 0x2060
        sw $31, 0($15)
        sw $5, 4($15)
        lw $4, 12($12)
        lw $25, 0($12)
        ori $2, $0, 64
        syscall
        jalr $31, $25
        addiu $15, $15, 8
        lw $5, 4($12)
        lw $13, -4($15)
        ori $1, $0, 1
        bne $5, $1, made
        ori $2, $0, 65
        ori $4, $0, 19
        syscall
made:
        lw $4, -20($28)
        srl $5, $13, 2
        srl $6, $13, 4
        addiu $6, $6, 112
        ori $2, $0, 66
        syscall
        addu $5, $2, $0
        ori $2, $0, 67
        syscall
        addu $5, $4, $0
        addu $13, $13, $4
        sw $13, -20($28)
        lw $4, -16($28)
        lw $6, 12($12)
        ori $2, $0, 68
        syscall
        lw $31, -8($15)
        addiu $5, $4, 1
        sw $5, -16($28)
        jr $31
        addu $2, $4, $0
bad:
        break 0, 18
table:
        break 0, 25
arena:
        break 0, 24

# 3: local
        .org 0x200
        lw $4, -12($28)
        ori $5, $0, 3
        addiu $4, $4, 8
        addu $3, $0, $0
        addu $7, $0, $0
        addu $6, $0, $0
        append

# 4: param
        .org 0x300
        sltiu $1, $4, 8
        bne $1, $0, .+12
        nothing
        break 0, 19
        ori $5, $0, 4
        addiu $7, $4, 1
        addu $3, $0, $0
        addu $6, $0, $0
        append

# 5: begin
        .org 0x400
        sw $4, -24($28)
        sw $0, -28($28)
        addu $2, $0, $0
        jr $31
        nothing

# 6: expression
        .org 0x500
        find
        addiu $3, $3, -1
        add_up

# 7: statement
        .org 0x600
        find
        addiu $3, $3, -2
        add_up

# 8: variable
        .org 0x700
        find
        sltiu $3, $3, 3
        add_up

# 13: new
        .org 0xc00
        lw $3, -24($28)
        lw $7, -28($28)
        ori $1, $0, 16384
        sltu $1, $1, $3
        beq $1, $0, .+12
        nothing
        break 0, 23
        append

        .org 0xf00
