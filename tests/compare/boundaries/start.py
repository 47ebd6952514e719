"""start: the examples, arguments, names."""
from rules.machine import MAX
from script import shown

from .built import many
from .out import BSS_END, E, LIMIT, TOP, Out, run_of


def examples():
    o = Out('examples', "The examples that are calls.")
    o.fresh(args=(b'lex', b'mot'))
    o.text(f"""
        sum
        from 1 {TOP - 32} 32
        end 1
    """)
    o('start', 1, "'x", E)
    o.all(f'from 1 {TOP - 16} 16', 'end 1')
    o.note('453 empty arguments pass, 454 do not; one of 4,071 bytes passes, 4,072 does not')
    for args in (['-'] * 453, ['-'] * 454, [run_of('a', 4071)], [run_of('a', 4072)]):
        o('start', 1, "'x", E, *args)
        o('sum')
        o('end 1')
    o.note('break to limit + 1: 34; to 2^64 - 1: 33')
    o('start', 1, "'x", E)
    o.all(f'break 1 {LIMIT + 1}', f'break 1 {MAX}')
    o.note('a range of length 0 at 2^47 passes, at 2^47 + 1 not; a string into an empty buffer')
    o.text(f"""
        range 1 {TOP} 0 r
        range 1 {TOP + 1} 0 r
        string 1 {MAX} 0
        string 1 0 0
        sum
    """)
    o.note('misreadings: a shrink inside a page keeps the tail; a string may end just before an unmapped page')
    o.text(f"""
        to 1 {BSS_END - 8} 'tailtail
        break 1 {BSS_END - 100}
        from 1 {BSS_END - 8} 8
        to 1 {BSS_END - 4} 61626300
        string 1 {BSS_END - 4} 9
        string 1 {BSS_END - 3} 9
    """)
    return o


def args():
    o = Out('args', 'Arguments of start: the limit of 4,096, NULs, the order of 32, 33, 30, 31 and 33.')
    o('frames 7 5')
    def start(*args, image=E):
        o('start', 1, "'x", image, *args)
        o('end 1')
    o.note('strings of each length up to 17: pointers, padding and sp')
    for k in range(18):
        o('start', 1, "'x", E, shown(b'a' * k))
        o('from', 1, TOP - 48, 48)
        o('end 1')
    o.note('two and three arguments')
    for args in ((b'', b''), (b'a', b'bc', b'def'), (b'lex', b''), (b'', b'mot1'), (b'\xff\x01 /', b"'")):
        o('start', 1, "'x", E, *map(shown, args))
        o('from', 1, TOP - 64, 64)
        o('end 1')
    o.note('at the limit and one above: one, two, many')
    for k in (4071, 4072, 4096):
        start(run_of('b', k))
    for k in (4061, 4062, 4063):
        start(run_of('c', k), '-')
    for k in (452, 453, 454, 455):
        start(*['-'] * k)
        start('6464', *['-'] * (k - 2))
    o.note('a NUL in an argument: before the limit and the image')
    start('00')
    start('6100', '62')
    start('61', '006200')
    start('00', run_of('a', 5000))
    start('00', image='00')
    o.note('the limit before the image, the image before the segments, the segments before the frames')
    start(run_of('a', 5000), image='00')
    start(image=shown(many(16)))
    start(image=shown(many(16, (6, 0, LIMIT, 1, 1))))
    start(image=shown(many(15)))
    o('sum')
    return o


def names():
    o = Out('names',
        'Names of 0, 27, 28, 29 and more bytes, with bytes 128 to 191 at the cut, by themselves and of processes.')
    names = [b'', b'a', b'a' * 26, b'a' * 27, b'a' * 28, b'a' * 29, b'a' * 60]
    two, three, four = 'é'.encode(), '語'.encode(), '\U0001f600'.encode()
    names += [b'a' * k + c + b'b' * 10 for c in (two, three, four) for k in range(20, 26)]
    names += [two * 13, two * 13 + b'a', two * 14, three * 9, three * 9 + b'a', four * 7, b'a' + four * 7,
        b'ab' + four * 7, b'abc' + four * 7]
    o.note('UTF-8')
    for n in names:
        o('name', shown(n))
    o.note('any bytes')
    odd = [b'\x80' * k for k in (1, 24, 25, 27, 28, 29)] + [b'\xbf' * 28, b'\xc0' * 28, b'\x7f' * 28,
        b'a' + b'\x80' * 30, b'a' * 24 + b'\x80' * 4, b'a' * 23 + b'\x80' * 5, b'a' * 25 + b'\x80' * 3,
        b'\x80' * 24 + b'a' * 4, b'\xff' * 28, b'\xff' * 27, bytes(28), bytes(27), b'a' * 10 + bytes(20),
        b'a' * 22 + b'\xe8\xaa' + b'\xc3\x28' + b'z' * 8, b'\xed\xa0\x80' * 10]
    for n in odd:
        o('name', shown(n))
    o.note('of processes: what follows the last slash')
    o('frames 16 0')
    for n in (b'', b'/', b'a/', b'/bin/', b'/bin/x', b'a/b/c', b'//', b'/bin/.', b'.', b'#/x', b'long/' * 10 + b'n',
            b'a' * 40 + b'/short', b'/bin/' + b'y' * 28, b'x/' + two * 14, b'\x80/\x81', b'\xff' * 30 + b'/q',
            b'q/' + b'\x80' * 30, b'nul\0s', b'/bin/nul\0'):
        o('start', 1, shown(n), E)
        o('sum')
        o(f'replace 1 {shown(b"/bin/z" + n)} {E} {TOP - 8}')
        o('sum')
        o(f'replace 1 {shown(n)} {E} {TOP - 8}')
        o('sum')
        o.text(f"""
            fork 1 2
            sum
            end 1
            end 2
        """)
    return o
