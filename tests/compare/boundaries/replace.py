"""replace."""
from rules.machine import MAX, PAGE
from random_images import EXAMPLE
from script import shown

from .built import build, data, long_image, many, seg
from .out import BSS_END, DATA, E, LIMIT, LOW, TEXT, TOP, UTZERO, Out, run_of, words


def replace():
    o = Out('replace', 'replace: argv arrays of every shape, its order of refusals, what is left.')
    a = BSS_END - PAGE                 # a bss page
    def run(*before, argv, image=E, name="'new"):
        o.fresh(frames=9, args=(b'lex',))
        o.all(*before)
        o(f'replace 1 {name} {image} {argv}')
        o('sum')
    o.note('no arguments: a null, in data, at the end of the stack, in the text, unaligned')
    run(argv=a)
    run(f'to 1 {TOP - 8} ' + words(0), argv=TOP - 8)
    run(argv=TEXT + 40)
    run(argv=a + 3)
    run(f'to 1 73721 ' + '00' * 8, argv=73721)
    o(f'from 1 {TOP - 16} 16')
    o.note("the start's own array, read from the old stack")
    run(argv=TOP - 24)
    o.all(f'from 1 {TOP - 24} 24', 'map 1')
    o.note('two arguments in text and stack, unaligned and over a page end')
    run(f"to 1 {a} 'hello", f'to 1 {a + 100} ' + words(TEXT + 1, a, TEXT + 1, 0), argv=a + 100)
    o(f'from 1 {TOP - 64} 64')
    run(f"to 1 {a} 'hello", f'to 1 {a - 13} ' + words(a + 14, 0), argv=a - 13)
    o(f'from 1 {TOP - 32} 32')
    o.note('arrays that leave the memory: at once, after one pointer, at the top, past 2^64')
    for v in (0, 1, UTZERO - 8, UTZERO - 1, BSS_END, BSS_END - 7, LIMIT, LOW - 1, TOP - 7, TOP - 1, TOP, TOP + 1,
            2**63, MAX - 7, MAX):
        run(argv=v)
    run(f'to 1 {BSS_END - 8} ' + words(TEXT + 1), argv=BSS_END - 8)
    run(f'to 1 {TOP - 8} ' + words(TEXT + 1), argv=TOP - 8)
    run(f'to 1 {TOP - 16} ' + words(TEXT + 1, TEXT + 1), argv=TOP - 16)
    o.note('strings that leave the memory')
    for p in (1, UTZERO - 1, BSS_END, LIMIT, LOW - 1, TOP, TOP + 5, 2**63, MAX):
        run(f'to 1 {a} ' + words(p, 0), argv=a)
    run(f"to 1 {BSS_END - 3} 'abc", f'to 1 {a} ' + words(BSS_END - 3, 0), argv=a)
    run(f'to 1 {BSS_END - 3} 616200', f'to 1 {a} ' + words(BSS_END - 3, 0), argv=a)
    run(f"to 1 {TOP - 3} 'abc", f'to 1 {a} ' + words(TOP - 3, 0), argv=a)
    o.note('too long: one string, no NUL within 4,096, the sum of two, too many')
    for k in (4071, 4072, 4095, 4096):
        run(f"to 1 {LOW} {run_of('a', k)}", f'to 1 {a} ' + words(LOW, 0), argv=a)
    for k in (2030, 2031, 2032):
        run(f"to 1 {LOW} {run_of('a', k)}", f'to 1 {a} ' + words(LOW, LOW, 0), argv=a)
    for k in (453, 454):
        run(f'to 1 {a} ' + words(*[BSS_END - 1] * k, 0), argv=a)
    o.note('a string that fills 4,096 bytes up to an unmapped page is too long, not bad')
    run(f"to 1 {TOP - 4096} {run_of('a', 4096)}", f'to 1 {a} ' + words(TOP - 4096, 0), argv=a)
    run(f"to 1 {TOP - 4095} {run_of('a', 4095)}", f'to 1 {a} ' + words(TOP - 4095, 0), argv=a)
    o.note('reading order: too long first, then a bad pointer; and the other way')
    run(f"to 1 {LOW} {run_of('a', 4080)}", f'to 1 {a} ' + words(LOW, 1, 0), argv=a)
    run(f"to 1 {LOW} {run_of('a', 4080)}", f'to 1 {a} ' + words(1, LOW, 0), argv=a)
    run(f'to 1 {BSS_END - 16} ' + words(TEXT + 1, LOW), f"to 1 {LOW} {run_of('a', 4090)}", argv=BSS_END - 16)
    o.note('a bad image before a bad array: 30, 31; then the process lives')
    for image in (b'', EXAMPLE[:100], data(flags=7), data(vaddr=TOP + 180), many(16)):
        run(argv=1, image=shown(image))
        o('break 1 0')
    o.note('too few frames come last: too long, then bad, then the end by 33')
    big = shown(data(memsz=2**40))
    run(f"to 1 {LOW} {run_of('a', 4080)}", f'to 1 {a} ' + words(LOW, 0), argv=a, image=big)
    run(argv=1, image=big)
    run(argv=a, image=big)
    o.note('smaller and larger images; the bss and segments are the new ones; the old bytes are gone')
    o.fresh(frames=24, args=(b'lex',))
    o.text(f"""
        to 1 {DATA} 'old-data
        replace 1 '/bin/small {shown(build(seg(5, 0)))} {TOP - 24}
        map 1
        range 1 {DATA} 1 r
        sum
        replace 1 'a/long {shown(long_image())} {TOP - 24}
        map 1
        break 1 0
        sum
        replace 1 '/ {E} {TOP - 24}
        from 1 {DATA} 8
        map 1
        sum
    """)
    return o
