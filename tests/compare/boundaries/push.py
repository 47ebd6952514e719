"""push."""
from rules.machine import MAX

from .out import BSS_END, DATA, LIMIT, LOW, TOP, UTZERO, Out, run_of


def push():
    o = Out('push', 'push: its order of refusals, tops at every edge, bytes that stay.')
    o.fresh()
    o.note('36 before 32, 32 before 33, 33 before 35')
    o.text(f"""
        push 1 0 {TOP - 8} 00
        push 1 0 {TOP - 15}
        push 1 0 {TOP + 1} 61
        push 1 0 1
        push 1 0 {MAX}
        push 1 0 {MAX - 7}
        push 1 0 {TOP} 00 {run_of('a', 5000)}
        push 1 0 0 {run_of('a', 5000)}
        push 1 0 0 00
        push 1 0 {TOP} {run_of('a', 4072)}
        push 1 0 {TOP} {'-' + ' -' * 453}
        sum
    """)
    o.note('what passes; pc is any number')
    o.text(f"""
        push 1 0 {TOP}
        push 1 {MAX} {TOP}
        push 1 1 {TOP - 16} 'a 'bb 'ccc
        from 1 {TOP - 96} 96
        sum
        push 1 0 {TOP} {run_of('a', 4071)}
        push 1 0 {TOP - 4096} {'-' + ' -' * 452}
        sum
    """)
    o.note('bytes between strings and pointers, and from sp to argv, keep their contents')
    o.text(f"""
        to 1 {TOP - 64} {'ee' * 64}
        push 1 0 {TOP} 'abc
        from 1 {TOP - 64} 64
        to 1 {TOP - 64} {'dd' * 64}
        push 1 0 {TOP} 'abcdefgh 'i
        from 1 {TOP - 64} 64
    """)
    o.note('onto bss and data: up to their ends, down to the text')
    o.text(f"""
        push 1 0 {BSS_END} 'abc
        from 1 {BSS_END - 32} 32
        push 1 0 {DATA + 16}
        push 1 0 {DATA + 32} 61
        from 1 {DATA} 40
        push 1 0 73728 '1234567890123456
        sum
    """)
    o.note('each of these ends the process: one push a process')
    tops = [f'{BSS_END + 16}', f'{DATA + 16} 61', f'{DATA}', f'{DATA + 8 * 4} 61 61 61', f'{UTZERO + 64}',
        f'{UTZERO + 64} 61', '0', '0 61', '16', '16 -', '16 61', '32 61', '48 61 62', '4096', f'{UTZERO}', f'{LOW}',
        f'{LOW} 61', f'{LOW + 16} 61', f'{LOW + 16} -', f'{LOW + 32} 61 62 63', f'{TOP + 16}', f'{TOP + 16} -',
        f"{TOP + 16} {run_of('a', 40)}", f'{2**63}', f'{2**64 - 16}', f'{2**64 - 16} -',
        f"{LOW + 2048} {run_of('a', 4071)}", f"{DATA + 2048} {run_of('a', 4000)}", f'{LIMIT + 64}']
    for t in tops:
        o.fresh()
        o(f'push 1 0 {t}')
        o('sum')
    o.note('and these pass: the lowest tops of the stack')
    o.fresh()
    o.text(f"""
        push 1 0 {LOW + 16}
        push 1 0 {LOW + 32} -
        push 1 0 {LOW + 32} 'abcdefg
        push 1 0 {LOW + 32} 61 62
        push 1 0 {LOW + 48} 61 62
        push 1 0 {LOW + 4096} {run_of('a', 4071)}
        sum
    """)
    return o
