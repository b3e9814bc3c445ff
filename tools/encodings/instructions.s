# Each form and each operation of the instruction table, with operands at the ends of their fields.
# GNU as for MIPS gives the words; `make` beside this file writes them to `rows`, with the numbers of their operands.
        .set    noreorder
        .set    noat
        .set    nomacro
        add     $3,$4,$5
        addu    $8,$9,$10
        sub     $31,$1,$2
        subu    $29,$29,$8
        and     $16,$17,$18
        or      $24,$25,$0
        xor     $24,$24,$25
        nor     $24,$24,$0
        slt     $2,$31,$30
        sltu    $1,$2,$3
        sll     $0,$0,0
        sll     $9,$10,31
        srl     $11,$12,1
        sra     $31,$31,16
        sllv    $8,$9,$10
        srlv    $11,$12,$13
        srav    $31,$0,$1
        jr      $31
        jr      $25
        jalr    $31,$8
        jalr    $2,$31
        syscall
        break   0,0
        break   0,7
        break   1023,1023
        mfhi    $31
        mflo    $8
        mthi    $9
        mtlo    $31
        mult    $8,$9
        multu   $31,$1
        div     $0,$4,$5
        divu    $0,$30,$31
        bltz    $8,.+20
        bgez    $31,.-4
        bltzal  $30,.+4
        bgezal  $0,.+131072
        j       0x04000000
        j       0x0ffffffc
        jal     0x00400020
        beq     $0,$0,.+4
        beq     $31,$30,.+12
        bne     $24,$25,.-131068
        blez    $8,.+8
        bgtz    $31,.+16
        addi    $3,$4,-32768
        addiu   $29,$29,-8
        addiu   $2,$0,32767
        slti    $8,$9,-1
        sltiu   $10,$11,1
        andi    $12,$13,65535
        ori     $2,$0,10
        xori    $24,$24,1
        lui     $8,0x0400
        lui     $31,65535
        lb      $8,0($9)
        lh      $10,-2($11)
        lw      $31,32767($29)
        lbu     $12,-32768($13)
        lhu     $14,2($15)
        sb      $16,3($17)
        sh      $18,-4($19)
        sw      $0,4($8)
# Words that the table doesn't have: a shift amount in JR, a code in SYSCALL, JALR and BGEZAL with the register that they link,
# an instruction of a coprocessor, and an instruction of a later architecture.
        .word   0x03e00048      # none
        .word   0x0000004c      # none
        .word   0x03e0f809      # none
        .word   0x07f10001      # none
        .word   0x40086000      # none
        .word   0x71095002      # none
