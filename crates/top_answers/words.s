# The generated code of the kernel of `src/kernel.rt`, written out by hand.
# The RISC-V unprivileged manual has the instructions; MEPC is the standard's, PLEVEL is this machine's own.

        .option norvc
        .option norelax
        .equ    MEPC, 0x341
        .equ    PLEVEL, 0x7c1           # the level that MRET goes back to
        .equ    BELOW, 628              # service word: the context of what was preempted
        .equ    SAVED, 752              # service words: the level before each resource was taken
        .equ    RESUME, 628             # service words, by `cur`: a task's own context
        .equ    IDLE_END, 1012          # the end of the idle loop's context
        .equ    IDLE, 0x80000548

# x3 holds 0x10000000 and x4 holds 0x80000000 outside of boot.

# Puts the hexadecimal digits of hi(value) and lo(value): value = (hi << 12) + lo, with lo signed.
        .macro  constant rd, value
        lui     \rd, (((\value) + 0x800) >> 12) & 0xfffff
        addi    \rd, \rd, (((\value) + 0x800) & 0xfff) - 0x800
        .endm

        .macro  each_register op
        .irp    i, 5,6,7,8,9,10,11,12,13,14,15,16,17,18,19,20,21,22,23,24,25,26,27,28,29,30,31
        \op     x\i, 4*\i(x1)
        .endr
        .endm

# A context lies below x2; its words 0 to 3 are the address, the level, the task and the context below it. Behind them stand the registers,
# where a task was running.
        .macro  open
        csrrci  x0, mstatus, 8
        .endm

        .macro  back
        csrrw   x0, MEPC, x31
        mret
        .endm

        .macro  back_at_x1
        csrrw   x0, PLEVEL, x1
        back
        .endm

        .macro  leave
        lw      x1, BELOW(x4)
        lw      x2, 0(x1)
        csrrw   x0, MEPC, x2
        lw      x2, 4(x1)
        csrrw   x0, PLEVEL, x2
        lw      x5, 8(x1)
        sw      x5, 0(x4)
        lw      x2, 12(x1)
        sw      x2, BELOW(x4)
        addi    x2, x1, 128
        beq     x5, x0, idle\@
        each_register lw
idle\@: mret
        .endm

# x1 becomes 1 where the task is Suspended, else 0.
        .macro  look_at task
        lbu     x1, 32+\task(x3)
        lbu     x10, \task(x3)
        sltu    x1, x10, x1
        lw      x10, 4+12*\task(x4)
        sltu    x1, x10, x1
        .endm

        .macro  end_task
        lw      x1, 0(x4)
        add     x5, x1, x3
        sb      x0, -1(x5)
        slli    x5, x1, 3
        slli    x1, x1, 2
        add     x1, x1, x5
        add     x1, x1, x4
        sw      x0, -8(x1)
        sw      x0, -4(x1)
        .endm

        .macro  raise task
        addi    x1, x0, 1
        sb      x1, \task(x3)
        .endm

        .macro  start_line line, level, autostart
        addi    x1, x0, \level
        sb      x1, 64+\line(x3)
        sb      x4, 32+\line(x3)
        .if     \autostart
        sb      x4, \line(x3)
        .endif
        .endm

        .macro  boot level, autostart
        lui     x3, 0x10000
        addi    x4, x0, 1
        start_line 0, \level, \autostart
        lui     x4, 0x80000
        addi    x2, x4, IDLE_END
        addi    x1, x0, 128
        csrrw   x0, mstatus, x1
        constant x1, IDLE
        csrrw   x0, MEPC, x1
        mret
        .endm

# Goes on behind the wait, where the task has a context of its own.
        .macro  go_on_behind_wait task
        lw      x1, RESUME+4+4*\task(x4)
        beq     x1, x0, anew\@
        sw      x0, RESUME+4+4*\task(x4)
        lw      x2, 0(x1)
        csrrw   x0, MEPC, x2
        addi    x2, x1, 128
        each_register lw
        addi    x10, x0, 0
        mret
anew\@:
        .endm

        .macro  prologue task, level, frame, words, first, extended=0
        addi    x1, x2, -128
        lw      x2, 0(x4)
        beq     x2, x0, idle\@
        each_register sw
idle\@: csrrs   x5, MEPC, x0
        sw      x5, 0(x1)
        csrrwi  x5, PLEVEL, \level
        sw      x5, 4(x1)
        sw      x2, 8(x1)
        lw      x2, BELOW(x4)
        sw      x2, 12(x1)
        sw      x1, BELOW(x4)
        addi    x2, x0, \task+1
        sw      x2, 0(x4)
        addi    x2, x0, 1
        sw      x2, 4+12*\task(x4)
        .if     \extended
        go_on_behind_wait \task
        .endif
        constant x2, \frame
        constant x1, \first
        csrrw   x0, MEPC, x1
        .set    k, 0
        .rept   \words
        sw      x0, 4*k(x2)
        .set    k, k + 1
        .endr
        .irp    i, 5,6,7,8,9,10,11,12,13,14,15,16,17,18,19,20,21,22,23,24,25,26,27,28,29
        addi    x\i, x0, 0
        .endr
        mret
        .endm

        .macro  activate_task task
        open
        look_at \task
        xori    x10, x1, 1
        slli    x10, x10, 2
        raise   \task
        back
        .endm

        .macro  chain_task task
        open
        lw      x1, 0(x4)
        addi    x10, x0, \task+1
        beq     x1, x10, go\@
        look_at \task
        bne     x1, x0, go\@
        addi    x10, x0, 4
        back
go\@:   end_task
        raise   \task
        leave
        .endm

# The lower level, with the way back as the address to go on at, which the jump passes.
        .macro  schedule
        open
        lw      x1, 0(x4)
        add     x1, x1, x3
        lbu     x1, 63(x1)
        csrrw   x30, PLEVEL, x1
        jal     x1, lowered\@
        csrrci  x0, mstatus, 8
        csrrw   x0, PLEVEL, x30
        csrrw   x0, MEPC, x31
        mret
lowered\@:
        csrrw   x0, MEPC, x1
        addi    x10, x0, 0
        mret
        .endm

        .macro  get_task_state task
        open
        addi    x10, x0, 0
        lw      x1, 4+12*\task(x4)
        beq     x1, x0, rests\@
        lw      x1, 0(x4)
        addi    x1, x1, -\task-1
        sltu    x11, x0, x1
        slli    x11, x11, 1
        back
rests\@:
        lbu     x1, 32+\task(x3)
        addi    x11, x0, 1
        beq     x1, x0, told\@
        lbu     x1, \task(x3)
        xori    x11, x1, 3
told\@: back
        .endm

# The level that ran goes to a0; where it is above the ceiling, it stays.
        .macro  get_resource resource, ceiling
        open
        addi    x1, x0, \ceiling
        csrrw   x10, PLEVEL, x1
        sw      x10, SAVED+4*\resource(x4)
        bgeu    x1, x10, kept\@
        csrrw   x0, PLEVEL, x10
kept\@: addi    x10, x0, 0
        back
        .endm

        .macro  release_resource resource
        open
        lw      x1, SAVED+4*\resource(x4)
        addi    x10, x0, 0
        back_at_x1
        .endm

        .macro  set_event task
        open
        look_at \task
        addi    x10, x0, 7
        bne     x1, x0, out\@
        lw      x1, 8+12*\task(x4)
        or      x1, x1, x30
        sw      x1, 8+12*\task(x4)
        lw      x10, 12+12*\task(x4)
        and     x1, x1, x10
        addi    x10, x0, 0
        beq     x1, x0, out\@
        raise   \task
        sb      x1, 32+\task(x3)
out\@:  back
        .endm

        .macro  get_event task
        open
        look_at \task
        addi    x10, x0, 7
        bne     x1, x0, out\@
        addi    x10, x0, 0
        lw      x11, 8+12*\task(x4)
out\@:  back
        .endm

# x1 becomes 0x80000000 + 12 * cur.
        .macro  find_own other
        lw      x1, 0(x4)
        slli    \other, x1, 3
        slli    x1, x1, 2
        add     x1, x1, \other
        add     x1, x1, x4
        .endm

        .macro  clear_event
        open
        find_own x10
        lw      x10, -4(x1)
        or      x10, x10, x30
        xor     x10, x10, x30
        sw      x10, -4(x1)
        addi    x10, x0, 0
        back
        .endm

        .macro  wait_event
        open
        find_own x3
        lw      x3, -4(x1)
        and     x3, x3, x30
        beq     x3, x0, rest\@
        lui     x3, 0x10000
        addi    x10, x0, 0
        back
rest\@: sw      x0, -8(x1)
        sw      x30, 0(x1)
        addi    x1, x2, -128
        each_register sw
        sw      x31, 0(x1)
        lw      x5, 0(x4)
        slli    x30, x5, 2
        add     x30, x30, x4
        sw      x1, RESUME(x30)
        lui     x3, 0x10000
        add     x5, x5, x3
        sb      x0, 31(x5)
        leave
        .endm

# Each block has a section of its own. Lines that begin with `#:` stand in the listing before its words.

#: vectors 80000400
        .section .b01, "ax"
        .set    line, 0
        .rept   32
        .if     line == 0
        jal     x0, . + 0x800ffffc - (0x80000400 + 4*line)
        .else
        jal     x0, . + IDLE - (0x80000400 + 4*line)
        .endif
        .set    line, line + 1
        .endr

#: idle 80000548
#: mark 80000548 Idle 0 0 0
        .section .b04, "ax"
        jal     x0, .

#: boot 80000480
        .section .b02, "ax"
        boot    5, 1
#: boot 80000480
        .section .b03, "ax"
        boot    5, 0

#: prologue 800ffffc
        .section .p01, "ax"
        prologue 0, 5, 0x80002e00, 0, 0x80001b74
#: prologue 800ffffc
        .section .p02, "ax"
        prologue 0, 5, 0x80002e00 - 4, 1, 0x80001b74
#: prologue 800ffffc
        .section .p03, "ax"
        prologue 0, 30, 0x80002e00, 0, 0x80001b74
#: prologue 800ffffc
        .section .p04, "ax"
        prologue 0, 30, 0x80002e00 - 128, 32, 0x80001b74
#: prologue 800ffffc
        .section .p05, "ax"
        prologue 0, 5, 0x80002e00, 0, 0x80001b74, 1
#: prologue 800ffffc
        .section .p06, "ax"
        prologue 0, 5, 0x80002e00 - 4, 1, 0x80001b74, 1
#: prologue 800ffffc
        .section .p07, "ax"
        prologue 0, 30, 0x80002e00, 0, 0x80001b74, 1
#: prologue 800ffffc
        .section .p08, "ax"
        prologue 0, 30, 0x80002e00 - 128, 32, 0x80001b74, 1

#: service 80001000
#: mark 80001000 Opening 0 0 0
        .section .b07, "ax"
        activate_task 0
#: service 80001000
#: mark 80001000 Opening 0 0 0
        .section .b08, "ax"
        activate_task 29
#: service 80001000
#: mark 80001000 Opening 1 0 0
        .section .b09, "ax"
        open
        end_task
        leave
#: service 80001000
#: mark 80001000 Opening 2 0 0
        .section .b10, "ax"
        chain_task 0
#: service 80001000
#: mark 80001000 Opening 2 0 0
        .section .b11, "ax"
        chain_task 29
#: service 80001000
#: mark 80001000 Opening 3 0 0
#: mark 80001018 Back 0 0 0
        .section .b23, "ax"
        schedule
#: service 80001000
#: mark 80001000 Opening 4 0 0
        .section .b12, "ax"
        open
        lw      x11, 0(x4)
        addi    x11, x11, -1
        addi    x10, x0, 0
        back
#: service 80001000
#: mark 80001000 Opening 5 0 0
        .section .b05, "ax"
        get_task_state 0
#: service 80001000
#: mark 80001000 Opening 5 0 0
        .section .b06, "ax"
        get_task_state 29
#: service 80001000
#: mark 80001000 Opening 6 0 0
        .section .b13, "ax"
        get_resource 1, 2
#: service 80001000
#: mark 80001000 Opening 6 0 0
        .section .b14, "ax"
        get_resource 32, 30
#: service 80001000
#: mark 80001000 Opening 7 0 0
        .section .b15, "ax"
        release_resource 0
#: service 80001000
#: mark 80001000 Opening 7 0 0
        .section .b16, "ax"
        release_resource 32
#: service 80001000
#: mark 80001000 Opening 8 0 0
        .section .b17, "ax"
        set_event 0
#: service 80001000
#: mark 80001000 Opening 8 0 0
        .section .b18, "ax"
        set_event 29
#: service 80001000
#: mark 80001000 Opening 9 0 0
        .section .b19, "ax"
        clear_event
#: service 80001000
#: mark 80001000 Opening 10 0 0
        .section .b20, "ax"
        get_event 0
#: service 80001000
#: mark 80001000 Opening 10 0 0
        .section .b21, "ax"
        get_event 29
#: service 80001000
#: mark 80001000 Opening 11 0 0
        .section .b22, "ax"
        wait_event

# Adds bit `task` of x3, 1 where the task is not Suspended. Uses x1 and x4.
        .macro  tick_look task
        lui     x4, 0x10000
        lbu     x1, 32+\task(x4)
        xori    x1, x1, 1
        lbu     x4, \task(x4)
        or      x1, x1, x4
        lui     x4, 0x80000
        lw      x4, 4+12*\task(x4)
        or      x1, x1, x4
        slli    x1, x1, \task
        or      x3, x3, x1
        .endm

# An alarm in use loses a tick; where it expires it begins its cycle and acts.
        .macro  alarm_begin alarm
        lw      x1, 372+8*\alarm(x4)
        beq     x1, x0, alarm_end_\alarm
        addi    x1, x1, -1
        sw      x1, 372+8*\alarm(x4)
        bne     x1, x0, alarm_end_\alarm
        lw      x1, 376+8*\alarm(x4)
        sw      x1, 372+8*\alarm(x4)
        .endm

        .macro  alarm_activates alarm, task
        alarm_begin \alarm
        lui     x4, 0x10000
        addi    x1, x0, 1
        sb      x1, \task(x4)
        lui     x4, 0x80000
        slli    x1, x1, \task
        or      x3, x3, x1
alarm_end_\alarm:
        .endm

        .macro  alarm_sets alarm, task, mask
        alarm_begin \alarm
        srli    x1, x3, \task
        andi    x1, x1, 1
        beq     x1, x0, alarm_end_\alarm
        lw      x1, 8+12*\task(x4)
        constant x4, \mask
        or      x1, x1, x4
        lui     x4, 0x80000
        sw      x1, 8+12*\task(x4)
        lw      x4, 12+12*\task(x4)
        and     x1, x1, x4
        beq     x1, x0, asleep_\alarm
        lui     x4, 0x10000
        addi    x1, x0, 1
        sb      x1, \task(x4)
        sb      x1, 32+\task(x4)
asleep_\alarm:
        lui     x4, 0x80000
alarm_end_\alarm:
        .endm

# The cycle is 0, or from the least to the greatest value, which stays in x1; else on to the refusal of a value.
        .macro  ask_cycle least, max, value
        beq     x11, x0, .+16
        constant x1, \least
        bltu    x11, x1, \value
        constant x1, \max
        bltu    x1, x11, \value
        .endm

        .macro  set_rel_alarm alarm, least, max
        open
        lw      x1, 372+8*\alarm(x4)
        bne     x1, x0, rel_state_\alarm
        ask_cycle \least, \max, rel_value_\alarm
        beq     x10, x0, rel_value_\alarm
        bltu    x1, x10, rel_value_\alarm
        sw      x10, 372+8*\alarm(x4)
        sw      x11, 376+8*\alarm(x4)
        addi    x10, x0, 0
        back
rel_value_\alarm:
        addi    x10, x0, 8
        back
rel_state_\alarm:
        addi    x10, x0, 7
        back
        .endm

        .macro  set_abs_alarm alarm, counter, least, max
        open
        lw      x1, 372+8*\alarm(x4)
        bne     x1, x0, abs_state_\alarm
        ask_cycle \least, \max, abs_value_\alarm
        bltu    x1, x10, abs_value_\alarm
        lw      x3, 364+4*\counter(x4)
        bltu    x3, x10, abs_ahead_\alarm
        sub     x3, x3, x1
        addi    x3, x3, -1
abs_ahead_\alarm:
        sub     x10, x10, x3
        lui     x3, 0x10000
        sw      x10, 372+8*\alarm(x4)
        sw      x11, 376+8*\alarm(x4)
        addi    x10, x0, 0
        back
abs_value_\alarm:
        addi    x10, x0, 8
        back
abs_state_\alarm:
        addi    x10, x0, 7
        back
        .endm

#: boot 80000480
        .section .c01, "ax"
        lui     x3, 0x10000
        addi    x4, x0, 1
        start_line 0, 5, 0
        start_line 30, 31, 0
        lui     x4, 0x80000
        addi    x2, x4, IDLE_END
        addi    x1, x0, 128
        csrrw   x0, mstatus, x1
        constant x1, IDLE
        csrrw   x0, MEPC, x1
        mret
#: tick 80000548
        .section .c02, "ax"
        lw      x1, 364(x4)
        constant x3, 1000000
        bne     x1, x3, counts
        addi    x1, x0, -1
counts: addi    x1, x1, 1
        sw      x1, 364(x4)
        addi    x3, x0, 0
        tick_look 0
        lui     x4, 0x80000
        alarm_activates 0, 0
        alarm_sets 1, 0, 1
        alarm_sets 2, 0, 1
        lui     x3, 0x10000
        mret
#: service 80001000
#: mark 80001000 Opening 12 0 0
        .section .c03, "ax"
        set_rel_alarm 0, 6144, 1000000
#: service 80001000
#: mark 80001000 Opening 12 0 0
        .section .c04, "ax"
        set_rel_alarm 2, 6144, 1000000
#: service 80001000
#: mark 80001000 Opening 13 0 0
        .section .c05, "ax"
        set_abs_alarm 0, 0, 6144, 1000000
#: service 80001000
#: mark 80001000 Opening 13 0 0
        .section .c06, "ax"
        set_abs_alarm 2, 0, 6144, 1000000
#: service 80001000
#: mark 80001000 Opening 14 0 0
        .section .c07, "ax"
        open
        lw      x1, 388(x4)
        addi    x10, x0, 5
        beq     x1, x0, .+12
        sw      x0, 388(x4)
        addi    x10, x0, 0
        back
#: service 80001000
#: mark 80001000 Opening 15 0 0
        .section .c08, "ax"
        open
        lw      x1, 388(x4)
        addi    x10, x0, 5
        beq     x1, x0, .+12
        lw      x11, 388(x4)
        addi    x10, x0, 0
        back
