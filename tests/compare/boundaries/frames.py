"""Frames: exactly enough, freed and used again; books of each size; longer histories."""
from rules.machine import PAGE
from script import shown

from .built import data, long_image
from .out import BSS_END, DATA, E, TOP, UTZERO, Out, lend, words


def frames():
    o = Out('frames',
        'Frames exactly enough and one short; the highest free frame first; frames freed and used again.')
    for n in (7, 6, 1):
        o.note(f'start in {n} frames, where 7 are wanted')
        o.text(f"""
            frames {n} 3
            start 1 'x {E} 'lex
            sum
        """)
    o.note('fork, which copies 6 pages of 7, with 7 free, with 6 and with 5')
    for n in (14, 13, 12):
        o.fresh(frames=n)
        o.text(f"""
            to 1 {DATA} 'parent
            fork 1 2
            sum
            break 1 0
            from 2 {DATA} 6
        """)
    o.note('break with exactly the frames wanted and one short')
    o.fresh(frames=9)
    o.text(f"""
        break 1 {BSS_END + 2 * PAGE + 1}
        sum
        break 1 {BSS_END + 2 * PAGE}
        sum
        break 1 {BSS_END + 2 * PAGE + 1}
    """)
    big = shown(data(memsz=8000 + 2 * PAGE))
    o.note('replace by an image of 9 pages: own and free frames suffice, or one is short and the process ends')
    for n in (9, 8, 7):
        o.fresh(frames=n, args=(b'a', b'bc'))
        o.text(f"""
            to 1 {DATA} 'before
            replace 1 'new {big} {TOP - 32}
            sum
            from 1 {TOP - 40} 40
        """)
    o.note('replace with another process beside it')
    for n in (17, 16, 15):
        o.fresh(frames=n)
        o.text(f"""
            start 2 'y {E}
            replace 1 'new {big} {TOP - 8}
            sum
            map 1
        """)
    o.note('a frame that none holds keeps its bytes; the highest free frame goes first')
    o('frames 24 17')
    o.text(f"""
        start 1 'a {E}
        start 2 'b {E} 'x
        start 3 'c {E} 'y 'z
        sum
        end 2
        sum
        break 1 {BSS_END + 3 * PAGE}
        map 1
        start 2 'd {E}
        sum
        end 1
        sum
        fork 3 4
        map 4
        sum
        break 4 73728
        sum
        break 2 {BSS_END + 1}
        map 2
        sum
    """)
    o.note('fork: segments in record order with the stack, then the bss')
    o.fresh(frames=20)
    o.text(f"""
        break 1 {BSS_END + PAGE}
        fork 1 16
        map 1
        map 16
        sum
    """)
    o.note('sixteen processes')
    o('frames 112 1')
    for n in range(1, 17):
        o(f"start {n} 'p{n} {E} 'arg{n}")
    o.text(f"""
        sum
        end 8
        fork 9 8
        sum
        break 3 0
        break 3 {BSS_END + PAGE + 1}
        end 16
        break 3 {BSS_END + 8 * PAGE}
        sum
    """)
    return o


def sizes():
    o = Out('sizes', 'Books of 0, 1, 1,024 and 1,025 frames; fewer frames lent than there are.')
    for n in (0, 1025):
        o.text(f"""
            frames {n}
            start 1 'x {E}
            range 1 0 0 r
            sum
        """)
    o.text(f"""
        {lend(1024)}
        start 1 'x {E}
        map 1
        sum
        {lend(1025)}
        break 1 0
    """)
    for size, words in ((1024 * PAGE, 17407), (1024 * PAGE, 17408), (1024 * PAGE, 17409), (1024 * PAGE, 1024), (1024 * PAGE, 17425),
            (1025 * PAGE, 17408), (1024 * PAGE - 1, 17408), (PAGE, 16), (PAGE, 17), (PAGE, 18), (0, 17), (17 * PAGE, 17)):
        o.all(f'lend {size} {words}', 'break 1 0')
    o.text(f"""
        frames 1
        start 1 'x {E}
        end 1
    """)
    o.note('1,024 frames: a bss of all that is left')
    o.text(f"""
        frames 1024 1
        start 1 'x {E}
        break 1 {BSS_END + 1017 * PAGE + 1}
        break 1 {BSS_END + 1017 * PAGE}
        sum
        fork 1 2
        to 1 {BSS_END + 1017 * PAGE - 3} 'end
        break 1 73728
        fork 1 2
        sum
    """)
    o.note('half of the frames lent, then all')
    o.text(f"""
        frames 16 8
        {lend(8)}
        start 1 'x {E}
        break 1 {BSS_END + 2 * PAGE}
        break 1 {BSS_END + PAGE}
        sum
        {lend(16)}
        map 1
        start 2 'y {E}
        sum
        {lend(8)}
        break 1 0
        break 2 0
        {lend(16)}
        end 2
        {lend(8)}
        break 1 73728
        sum
        {lend(7)}
        break 1 0
    """)
    return o


def history():
    o = Out('history', 'A longer history of several processes.')
    o('frames 40 170')
    o.text(f"""
        start 1 '/bin/shell {E} 'shell
        string 1 {TOP - 6} 10
        fork 1 2
        to 2 {TOP - 200} {words(TOP - 150, TOP - 140, 0)}
        to 2 {TOP - 150} {'edit'.encode().hex()}00
        to 2 {TOP - 140} {'file'.encode().hex()}00
        replace 2 '/bin/edit {shown(long_image())} {TOP - 200}
        string 2 {TOP - 10} 10
        from 2 {TOP - 40} 40
        sum
        break 2 {UTZERO + 10 * PAGE}
        to 2 {UTZERO + 9 * PAGE} 'buffer
        fork 2 3
        to 3 {UTZERO + 9 * PAGE} 'BUFFER
        from 2 {UTZERO + 9 * PAGE} 6
        break 3 0
        break 3 {UTZERO + 9 * PAGE}
        break 3 {UTZERO + 10 * PAGE}
        from 3 {UTZERO + 9 * PAGE} 6
        sum
        push 3 4096 {TOP - 1024} 61 62 63
        from 3 {TOP - 1080} 56
        string 3 {UTZERO} 8
        to 3 {UTZERO} 61
        break 3 0
        end 2
        sum
        break 1 {BSS_END + 20 * PAGE}
        break 1 {BSS_END + 30 * PAGE}
        start 4 'four {E}
        fork 1 5
        break 1 70000
        fork 1 5
        map 1
        map 5
        end 1
        end 5
        sum
        from 4 {BSS_END} 1
        sum
        end 4
    """)
    return o
