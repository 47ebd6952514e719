"""fork."""
from rules.machine import MAX, PAGE

from .built import build, many, seg
from .out import BSS_END, DATA, LOW, TEXT, TOP, UTZERO, Out


def fork():
    o = Out('fork', 'fork: its numbers, its lent list, and two processes apart.')
    own = f'{TEXT} {DATA} 1 {DATA} 73728 3 {LOW} {TOP} 3'
    o.fresh(frames=30)
    o.note('3 for either number, 4 for the parent, 5 for the child')
    o.text(f"""
        fork 0 2
        fork 17 2
        fork 1 0
        fork 1 17
        fork {MAX} {MAX}
        fork 3 17
        fork 17 1
        fork 2 3
        fork 2 1
        fork 1 1
        fork 2 2
        sum
    """)
    o.note('the record as a list passes; any other list is 2')
    o.text(f"""
        fork 1 2 {own}
        sum
        end 2
    """)
    for bad in (f'{TEXT} {DATA} 1', f'{TEXT} {DATA} 1 {DATA} 73728 3',
            f'{DATA} 73728 3 {TEXT} {DATA} 1 {LOW} {TOP} 3', own + ' 0 0 0', own + f' {LOW} {TOP} 3',
            own + ' 73728 77824 3', own.replace(' 1 ', ' 2 ', 1), own.replace('73728', '77824'),
            own.replace(str(TEXT), str(TEXT + 1), 1), own[:-1] + '4', own[:-1] + str(2**32 + 3), '0 0 0',
            ' '.join([own] * 5 + [own]), f'{LOW} {TOP} 3'):
        o(f'fork 1 2 {bad}')
    o.note('2 before 5 and 3 (of the child), a parent outside 1 to 16 has no record, a dead one an empty list')
    o.text(f"""
        fork 1 1 0 0 0
        fork 1 17 0 0 0
        fork 17 2 {own}
        fork 0 1 0 0 0
        fork 2 3 {own}
        fork 1 17 {own}
        fork 1 1 {own}
        sum
    """)
    o.note('the child has the bytes, the record and the name; then each has its own')
    o.text(f"""
        to 1 {DATA} 'parents
        to 1 {BSS_END - 4} 'bss!
        to 1 {TOP - 8} 'stack!!!
        fork 1 16
        sum
        from 16 {DATA} 8
        from 16 {BSS_END - 4} 4
        from 16 {TOP - 8} 8
        from 16 {TEXT} 16
        to 16 {DATA} 'child
        from 1 {DATA} 8
        to 1 {TOP - 8} 'mine
        from 16 {TOP - 8} 8
        range 16 {TEXT} 1 w
        break 16 73728
        from 1 {BSS_END - 4} 4
        break 1 {BSS_END + PAGE}
        range 16 {BSS_END} 1 r
        fork 16 2
        map 2
        end 16
        from 2 {DATA} 8
        sum
        from 1 {MAX} 1
        from 2 {DATA} 8
        sum
        fork 2 1
        sum
    """)
    o.note('rodata keeps its permission; an image without data; a bss that begins at a page')
    for image in (build(seg(5, 0), seg(4, 1)),
            build(seg(5, 0), seg(6, 1, 0, 5000))):
        o.fresh(frames=20, n=3, image=image)
        o.text(f"""
            fork 3 4
            range 4 {DATA} 1 r
            range 4 {DATA} 1 w
            map 4
            sum
        """)
    o.note('fifteen segments and the stack')
    o.fresh(frames=32, image=many(15))
    o.text(f"""
        fork 1 2
        sum
        break 2 {UTZERO + 18 * PAGE}
        fork 2 3
        sum
        end 1
        fork 2 3
        sum
    """)
    return o
