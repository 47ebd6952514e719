"""break, and its rule by itself."""
from rules.machine import MAX, PAGE

from .built import build, data, seg
from .out import BSS, BSS_END, LIMIT, LOW, TOP, UTZERO, Out


def brk():
    o = Out('break', 'break: at, below and above start, end and limit; contents on shrinking and growing.')
    o.fresh(frames=10)
    addresses = [0, 1, BSS - 1, BSS, BSS + 1, 73727, 73728, 73729, BSS_END - 1, BSS_END, BSS_END + 1, BSS_END + PAGE,
        BSS_END + PAGE + 1, BSS_END + 2 * PAGE, BSS_END + 3 * PAGE, BSS_END + 3 * PAGE + 1, BSS_END + 4 * PAGE,
        BSS_END + 2 * PAGE + 1, LIMIT - PAGE, LIMIT - 1, LIMIT, LIMIT + 1, LIMIT + PAGE, LOW, TOP, 2**63,
        2**64 - PAGE - 1, 2**64 - PAGE, 2**64 - PAGE + 1, MAX, BSS]
    for a in addresses:
        o(f'break 1 {a}')
        o('sum')
    o.note('a refusal leaves the end; what is above the end is not mapped, the guard page neither')
    o.text(f"""
        break 1 {BSS}
        range 1 73728 1 r
        range 1 73727 1 w
        break 1 {BSS_END}
        range 1 {BSS_END - 1} 1 w
        range 1 {BSS_END} 1 r
    """)
    o.note('bytes past the address in its page stay; pages given back come again as zeros')
    o.text(f"""
        to 1 {BSS_END - PAGE + 10} 'in-the-page
        to 1 73720 'in-data!
        break 1 {BSS_END - PAGE + 12}
        from 1 {BSS_END - PAGE + 8} 16
        break 1 73728
        from 1 73720 8
        break 1 {BSS_END}
        from 1 {BSS_END - PAGE + 8} 16
        from 1 73720 8
        sum
        break 1 {BSS}
        from 1 73720 8
        sum
    """)
    o.note('no data: the bss begins empty, at the page end')
    o.fresh(frames=8, image=build(seg(5, 0)))
    for a in (0, UTZERO, 69631, 69632, 69633, 73728, 73729, 69632 + 3 * PAGE, 69632 + 3 * PAGE + 1, 69632,
            69632 + 3 * PAGE, 0):
        o(f'break 1 {a}')
    o.all('sum', 'map 1')
    o.note('a start at a page: data without file bytes')
    o.fresh(frames=8, image=build(seg(5, 0), seg(6, 1, 0, 1)))
    for a in (0, 69631, 69632, 69633, 73728, 73729, 69632, 0):
        o(f'break 1 {a}')
    o('sum')
    o.note('up to limit')
    o.fresh(frames=9, image=data(vaddr=LIMIT - 2 * PAGE + 180, memsz=PAGE - 180))
    for a in (0, LIMIT - PAGE, LIMIT - PAGE + 1, LIMIT - 1, LIMIT, LIMIT + 1, LIMIT - 2 * PAGE + 183,
            LIMIT - 2 * PAGE + 184, LIMIT, LIMIT - PAGE, LIMIT):
        o(f'break 1 {a}')
    o.text(f"""
        range 1 {LIMIT - 1} 1 w
        range 1 {LIMIT} 1 r
        range 1 {LOW - 1} 1 r
        range 1 {LOW} 1 w
        sum
    """)
    return o


def rule():
    o = Out('rule', "The break's rule by itself, with any numbers.")
    o.note('no bss')
    o.text(f"""
        rule none none 5 0
        rule none none 5 70000
        rule none none 0 {MAX}
    """)
    o.note('addresses')
    for a in (0, 1, 69999, 70000, 70001, 73727, 73728, 73729, 77824, 77825, 81920, 81921, LIMIT - PAGE,
            LIMIT - PAGE + 1, LIMIT, LIMIT + 1, TOP, 2**63, MAX - PAGE, MAX - PAGE + 1, MAX - PAGE + 2, MAX):
        for free in (0, 1, 2):
            o(f'rule 70000 73728 {free} {a}')
    o.note('growth weighed exactly: from an end inside a page too')
    for end in (73728, 73729, 73727, 73000):
        for a in (73728, 73729, 77824, 77825, 81921):
            for free in (0, 1, 2):
                o(f'rule 70000 {end} {free} {a}')
    o.note('up to limit: one page too few, exactly enough, far more than there is room for')
    pages = (LIMIT - 73728) // PAGE
    for free in (pages - 1, pages, pages + 1, 2**52 - 1, 2**52, 2**52 + 1, 2**63, MAX):
        o(f'rule 70000 73728 {free} {LIMIT}')
        o(f'rule 70000 73727 {free} {LIMIT}')
    o.note('shrinks from any end; starts above ends; starts above limit')
    for line in (f'0 {MAX} 0 1', f'0 {2**64 - PAGE} 0 1', f'70000 {LIMIT} 0 70000', f'70000 {TOP} 0 {LIMIT}',
            f'70000 {TOP} 0 {LIMIT + 1}', '5 3 9 5', '5 3 0 5', '5 3 1 5', '5 5000 9 8193', '5 5000 1 8193',
            '0 0 0 0', '0 0 0 1', '0 0 1 1', f'{MAX} {MAX} 1 {MAX}', f'{MAX} 0 1 {MAX}', f'{MAX} {MAX} 1 0',
            f'{MAX} {MAX} 1 {MAX - 1}', f'{LIMIT + 1} {LIMIT + PAGE} 9 {LIMIT + 1}', f'{LIMIT} {LIMIT} 0 {LIMIT}',
            f'{LIMIT} {LIMIT} 9 {LIMIT + 1}', f'{TOP} 0 9 {TOP}', f'80000 73728 9 80000', f'80000 73728 1 80000',
            f'80000 73728 2 80000', '73728 73728 0 73728', '1 4096 0 4096', '1 4096 0 4097', '0 4096 0 1',
            '70000 73728 1048577 4295041024', '70000 73728 1048558 4295041024', '70000 73728 1048557 4295041024'):
        o('rule ' + line)
    return o
