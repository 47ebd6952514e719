"""The form of scripts: lines that are no call, numbers, bytes, files."""
from .out import DATA, E, TOP, Out


def form():
    o = Out('format', 'Lines that are no call, and the forms of numbers and bytes.')
    o.fresh(frames=9)
    o.note('no call: unknown, words missing or too many, no number, odd or no hex digits, two spaces')
    o.text(f"""
        start
        starts 1
        Start 2
        start 2
        start 2 'x
        start x 'x {E}
        start 2 'x 0
        start 2 'x 0g
        start 2 zz 00
        start 2 'x {E} 1
        start 2  'x {E}
        replace 1
        replace 1 'x {E}
        replace 1 'x {E} y
        replace 1 'x {E} 1 2
        push 1
        push 1 2
        push 1 2 z
        push 1 2 16 1
        break 1
        break 1 2 3
        break 1 -1
        break 1 0x10
        break 1 {2**64}
        break 1 99999999999999999999999
        fork 1
        fork 1 2 3
        fork 1 2 3 4
        fork 1 2 3 4 x
        fork 1 2 1 2 3 4
        end
        end 1 2
        range 1 2 3
        range 1 2 3 x
        range 1 2 3 r w
        range 1 2 3 rw
        from 1 2
        from 1 2 65537
        from 1 2 3 4
        to 1 2
        to 1 2 6
        to 1 2 61 62
        string 1 2
        string 1 2 65537
        string 1 2 3 4
        rule 1 2 3
        rule none none 3
        rule none 1 2 3
        rule 1 none 2 3
        name
        name 6
        name 61 62
        sum 1
        map
        map x
        frames
        frames 1026
        frames x
        frames 1 2 3
        lend 1
        lend 1 2 3
        word 1
        word 1 2 3
        lend 36865 153
        lend 36864 154
        word 153 0
        word 0 {2**64}
        to 1 2 @no-such-file
        @
        '
        -
    """)
    o.all(' sum', 'sum ', f"start 2 'x {E} ")
    o.note('nothing changed')
    o('sum')
    o.note('all that there is to lend, the last word, and with no frames none')
    o.text("""
        lend 36864 153
        word 152 2
        sum
        word 152 1
        sum
        frames 0
        word 0 0
        lend 0 0
        lend 0 1
        sum
    """)
    o.fresh(frames=9)
    o.note("bytes: hex digits of either case, none, after a quote; numbers with zeros before them")
    o.text(f"""
        to 1 {DATA} 4aAf
        from 1 {DATA} 2
        to 1 {DATA} 'a#'-@
        from 1 {DATA} 6
        to 1 {DATA} '
        to 1 {DATA} -
        from 01 000{DATA} 02
        name '
        name ''
        name -
        sum
    """)
    return o


def files():
    o = Out('files', 'Bytes from files, by their paths from the repository.')
    o('frames 9')
    o.text(f"""
        start 1 '/bin/example @tests/compare/example.elf 'lex
        sum
        replace 1 '/bin/example @tests/compare/example.elf {TOP - 24}
        sum
        to 1 {DATA} @tests/compare/example.elf
        sum
        name @tests/compare/example.elf
    """)
    o.note('a file that is missing, a folder, and one that does not end')
    o.text(f"""
        to 1 {DATA} @tests/compare/no-such-file
        to 1 {DATA} @tests/compare
        to 1 {DATA} @
        to 1 {DATA} @/dev/zero
        name @tests/compare/no-such-file
        name @/dev/zero
        push 1 0 {TOP} @tests/compare/no-such-file
        push 1 0 {TOP} 'a @/dev/zero
        replace 1 'x @tests/compare/no-such-file 0
        replace 1 @/dev/zero 00 0
        start 2 'x @tests/compare/no-such-file
        start 2 'x @/dev/zero
    """)
    o.note('the first word that gives nothing says why, the image of a start coming last')
    o.text("""
        start x @tests/compare/no-such-file @/dev/zero
        start 2 @tests/compare/no-such-file @/dev/zero
        start 2 'x @tests/compare/no-such-file 'a @/dev/zero
        start 2 'x @/dev/zero 'a 6
        start 2 @/dev/zero 6 @tests/compare/no-such-file
        replace 1 'x @/dev/zero x
        replace x 'x @/dev/zero 0
        push 1 0 x @/dev/zero
        push 1 0 16 @/dev/zero @tests/compare/no-such-file
        to x 0 @/dev/zero
        sum
    """)
    return o
