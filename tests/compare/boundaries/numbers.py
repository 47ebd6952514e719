"""Numbers 1 to 5, for each of the ten calls."""
from rules.machine import MAX, PAGE

from .out import BSS_END, DATA, E, LIMIT, LOW, TEXT, TOP, Out, count, lend, mapping, place


def ten(n, child=2):
    """A line for each of the ten calls: start and fork make process `child`, the others are of process n."""
    return [f"start {child} 'x {E}", f"replace {n} 'x {E} {TOP - 8}", f'push {n} 0 {TOP}', f'break {n} 0',
        f'fork {n} {child}', f'range {n} 0 0 r', f'from {n} {DATA} 1', f'to {n} {DATA} 61', f'string {n} {DATA} 1',
        f'end {n}']


def hold(frame, n, word):
    """The lines that make a mapping the only one of a frame, or leave it free."""
    return [f'word {place(frame, n)} {word}', f'word {count(frame)} {min(word, 1)}']


def numbers():
    o = Out('numbers', 'Numbers 1 to 5 and their order, for each of the ten calls; torn books; odd sizes.')
    o.note('1 before 2, 3, 4 and 5')
    o.fresh(frames=9)
    for size, words in ((9 * PAGE, 136), (9 * PAGE, 152), (8 * PAGE, 153), (9 * PAGE - 1, 153), (8 * PAGE, 137), (9 * PAGE, 9),
            (0, 0), (0, 153), (9 * PAGE, 0), (1, 0), (0, 16)):
        o(f'lend {size} {words}')
        o.all(*ten(1))
    o('word 0 7')
    o.all(*ten(17, 17), lend(9))
    o.note('2 before 3, 4 and 5')
    o.all(*ten(1, 1), *ten(17, 17), *ten(3, 1), 'word 0 0', 'sum')
    o.note('3 before 4 and 5')
    for n in (0, 17, 2**32 + 1, MAX):
        o.all(*ten(n, n))
    o.note('4 and 5')
    o.all(*ten(2, 1))
    o.note('3, 4 and 5 before the rest of the call')
    o.text(f"""
        start 17 'x 00 00
        start 1 'x 00 00
        replace 2 'x 00 1
        push 2 0 1 00
        from 2 {MAX} 1
        to 2 {MAX} 61
        string 2 {MAX} 1
        break 2 {MAX}
        range 2 {MAX} 1 r
        sum
    """)
    o.note('a process ends once')
    o.text(f"""
        end 1
        end 1
        break 1 0
        sum
        start 1 'x {E}
        sum
    """)
    w = mapping
    o.note('every clause of a sound book: one mapping written with its count, one call, both put back')
    # The example in 9 frames: text 8, data 7, bss 6, stack 5 to 2; 1 and 0 free.
    o.fresh(frames=9)
    good = {8: w(TEXT, 1, 1), 7: w(DATA, 1, 3), 6: w(DATA + PAGE, 1, 3), 5: w(LOW, 1, 3), 2: w(TOP - PAGE, 1, 3),
        0: 0}
    tears = [(8, 0), (7, 0), (6, 0), (5, 0), (2, 0), (8, w(TEXT, 1, 2)), (8, w(TEXT, 1, 3)), (8, w(TEXT, 1, 0)),
        (8, w(TEXT, 1, 4)), (8, w(TEXT, 1, 15)), (7, w(DATA, 1, 1)), (6, w(DATA + PAGE, 1, 2)),
        (2, w(TOP - PAGE, 1, 2)), (8, w(TEXT, 0, 1)), (8, w(TEXT, 2, 1)), (8, w(TEXT, 16, 1)), (8, w(TEXT, 17, 1)),
        (8, w(TEXT, 255, 1)), (8, w(TEXT, 129, 1)), (8, w(TEXT - PAGE, 1, 1)), (8, w(0, 1, 1)), (2, w(TOP, 1, 3)),
        (2, w(TOP + PAGE, 1, 3)), (2, w(2**63, 1, 3)), (8, w(2**63 + TEXT, 1, 1)), (0, w(TEXT, 1, 1)),
        (0, w(DATA, 1, 3)), (0, w(BSS_END, 1, 3)), (0, w(LIMIT, 1, 3)), (0, w(TEXT, 2, 1)), (0, w(LOW, 16, 3)),
        (0, w(TOP - PAGE, 1, 3)), (0, 1), (0, 3), (0, 16), (0, 19), (0, TEXT), (0, TEXT + 16), (0, TEXT + 3),
        (0, MAX), (0, 2**63)]
    for i, bad in tears:
        # In the place of the owner that the word has, so far as there is one.
        n = bad % PAGE // 16 if 1 <= bad % PAGE // 16 <= 16 else 1
        lines = hold(i, 1, 0) + hold(i, n, bad) if n != 1 else hold(i, 1, bad)
        o.all(*lines, f'range 1 {DATA} 1 w')
        if n != 1:
            o.all(*hold(i, n, 0))
        o.all(*hold(i, 1, good[i]), f'range 1 {DATA} 1 w')
    o('sum')
    o.note('another order of the same mappings is sound: the pages change their frames')
    o.text(f"""
        to 1 {DATA} 'data-page
        to 1 {DATA + PAGE} 'bss-page
        word {place(7, 1)} {good[6]}
        word {place(6, 1)} {good[7]}
        from 1 {DATA} 9
        from 1 {DATA + PAGE} 9
    """)
    o.all(*hold(8, 1, 0), *hold(0, 1, good[8]))
    o.text(f"""
        from 1 {TEXT} 4
        start 2 'y {E}
        break 1 {BSS_END + PAGE}
        map 1
        sum
        end 1
        sum
    """)
    o.note('torn while another process lives: every call of either is 2')
    o.fresh(frames=20)
    o.all('fork 1 2', f'word {place(19, 1)} {w(TEXT, 1, 2)}', *ten(2, 3), 'sum', f'word {place(19, 1)} {w(TEXT, 1, 1)}', *ten(2, 3),
        'sum')
    return o
