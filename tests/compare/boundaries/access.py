"""user_range_ok, copy_from_user, copy_to_user, try_copy_str_from_user."""
from rules.machine import MAX, PAGE

from .built import build, seg
from .out import BSS_END, DATA, LIMIT, LOW, TEXT, TOP, UTZERO, Out, run_of


def access():
    o = Out('access',
        'user_range_ok, copy_from_user and copy_to_user at the ends of pages, segments and the address space.')
    rodata = build(seg(5, 0, 64, 64), seg(4, 1, 64, 64), seg(6, 3, 64, 5000))
    o.fresh(frames=12, image=rodata)
    # text 65536, rodata 69632, a hole 73728, data 77824 to 86016, stack
    ranges = [(UTZERO, 0), (UTZERO, 1), (UTZERO, PAGE), (UTZERO, 2 * PAGE), (UTZERO, 2 * PAGE + 1), (UTZERO - 1, 1),
        (UTZERO - 1, 2), (UTZERO + PAGE - 1, 1), (UTZERO + PAGE - 1, 2), (UTZERO + 2 * PAGE - 1, 1),
        (UTZERO + 2 * PAGE - 1, 2), (UTZERO + 2 * PAGE, 0), (UTZERO + 2 * PAGE, 1), (UTZERO + 2 * PAGE + 5, 0),
        (UTZERO + 3 * PAGE - 1, 2), (UTZERO + 3 * PAGE, 1), (UTZERO + 3 * PAGE, 2 * PAGE),
        (UTZERO + 3 * PAGE, 2 * PAGE + 1), (UTZERO + 3 * PAGE + 1, 2 * PAGE), (UTZERO + 5 * PAGE - 1, 1),
        (UTZERO + 5 * PAGE, 1), (UTZERO + 5 * PAGE, 0), (0, 0), (0, 1), (1, MAX), (0, MAX), (LOW - 1, 1),
        (LOW - 1, 2), (LOW, 16384), (LOW, 16385), (TOP - 1, 1), (TOP - 1, 2), (TOP - 1, 0), (TOP, 0), (TOP, 1),
        (TOP + 1, 0), (MAX, 0), (MAX, 1), (UTZERO, TOP - UTZERO), (UTZERO, TOP - UTZERO + 1),
        (UTZERO, 2**64 - UTZERO), (UTZERO, 2**64 - UTZERO - 1), (UTZERO, MAX), (LOW, MAX), (LOW, 2**63),
        (2**63, 2**63), (LIMIT, 1), (LIMIT, PAGE), (LIMIT, PAGE + 1)]
    for a, k in ranges:
        o(f'range 1 {a} {k} r')
        o(f'range 1 {a} {k} w')
    o('sum')
    o.note('reads that pass: over page ends, of nothing, of the last byte')
    o.text(f"""
        from 1 {UTZERO + PAGE - 3} 6
        from 1 {UTZERO + 2 * PAGE - 1} 1
        from 1 {UTZERO + 4 * PAGE - 2} 4
        from 1 {TOP - 1} 1
        from 1 0 0
        from 1 {TOP} 0
        from 1 {UTZERO} 64
        from 1 {UTZERO + 3 * PAGE} {2 * PAGE}
    """)
    o.note('writes that pass')
    o.text(f"""
        to 1 {UTZERO + 3 * PAGE} 'first
        to 1 {UTZERO + 4 * PAGE - 3} 'across
        to 1 {UTZERO + 5 * PAGE - 4} 'last
        from 1 {UTZERO + 3 * PAGE} 8
        from 1 {UTZERO + 4 * PAGE - 4} 8
        to 1 {TOP - 3} 'end
        to 1 {LOW} 'low
        to 1 0 -
        to 1 {UTZERO} -
        to 1 {TOP} -
        to 1 {LOW + PAGE - 2} {run_of('z', 2 * PAGE + 4)}
        sum
    """)
    o.note('each of these ends the process')
    for a, k in ((UTZERO - 1, 1), (UTZERO - 1, 2), (UTZERO + 2 * PAGE - 1, 2), (UTZERO + 2 * PAGE, 1),
            (UTZERO, 2 * PAGE + 1), (0, 1), (TOP, 1), (TOP - 1, 2), (TOP + 1, 0), (MAX, 0), (MAX, 1), (2**63, 0),
            (MAX, 65536), (UTZERO + 5 * PAGE, 1), (UTZERO + 5 * PAGE - 1, 2), (LOW - 1, 1), (LIMIT, 1)):
        o.fresh(frames=12, image=rodata)
        o(f'from 1 {a} {k}')
        o('from 1 0 0')
    o('sum')
    for a, b in ((UTZERO, '61'), (UTZERO + PAGE, '61'), (UTZERO + 3 * PAGE - 1, '6162'),
            (UTZERO + 5 * PAGE - 1, '6162'), (UTZERO + 5 * PAGE, '61'), (UTZERO + 4 * PAGE - 1, run_of('a', PAGE + 2)),
            (TOP - 1, '6162'), (TOP, '61'), (TOP + 1, '-'), (MAX, '-'), (MAX, '61'), (LOW - 1, '6162'), (0, '00')):
        o.fresh(frames=12, image=rodata)
        o(f'to 1 {a} {b}')
        o('sum')
    return o


def strings():
    o = Out('strings', 'try_copy_str_from_user: ends of pages, buffers full without a NUL, what stays in the buffer.')
    o.fresh()
    end = BSS_END
    o.note('ending just before an unmapped page')
    o.text(f"""
        to 1 {end - 4} 61626300
        string 1 {end - 4} 3
        string 1 {end - 4} 4
        string 1 {end - 4} 5
        string 1 {end - 4} 40
        string 1 {end - 1} 9
    """)
    o.note('no NUL before it: as long as the buffer allows, then 35 with the bytes before the bad page')
    o.text(f"""
        to 1 {end - 4} 'wxyz
        string 1 {end - 4} 3
        string 1 {end - 4} 4
        string 1 {end - 4} 5
        string 1 {end - 1} 1
        string 1 {end - 1} 2
        string 1 {end} 0
        string 1 {end} 1
        string 1 {end} 6
    """)
    o.note('over a page end inside, from text to data, from data to bss')
    o.text(f"""
        to 1 {DATA} 'DATA
        string 1 {DATA - 4} 3
        string 1 {DATA} 3
        string 1 {DATA} 4
        string 1 {DATA} 5
        to 1 73725 'twopages
        string 1 73725 20
        string 1 73725 3
        string 1 73725 4
        string 1 {TEXT} 8
        string 1 {TEXT + 177} 8
    """)
    o.note('a page and more')
    o.text(f"""
        to 1 {LOW} {run_of('k', 5000)}
        string 1 {LOW} 5001
        string 1 {LOW} 5000
        string 1 {LOW + 4999} 2
        string 1 {LOW + 4095} 906
    """)
    o.note('the top of the address space')
    o.text(f"""
        to 1 {TOP - 3} 'end
        string 1 {TOP - 3} 3
        string 1 {TOP - 3} 4
        string 1 {TOP - 1} 1
        string 1 {TOP - 1} 2
        string 1 {TOP} 0
        string 1 {TOP} 1
        string 1 {TOP + 1} 0
        string 1 {MAX} 0
        string 1 {MAX} 1
        string 1 {MAX} 4
        string 1 0 1
        string 1 0 4
        string 1 {UTZERO - 1} 2
        string 1 {LOW - 1} 2
        string 1 {2**63} 3
        string 1 {LIMIT} 1
    """)
    o.note('the process lives, nothing changed but what was written')
    o.all('sum', 'break 1 0')
    return o
