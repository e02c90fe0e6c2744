# Writes a note of two lines into the file todo, reads it back and shows it on the terminal.
# todo stays; the file draft is made too, and goes again.
# A call that fails ends the program with the number of its error.

        la      a0, todo
        li      a1, 4
        li      a2, 15          # to read, to write, to create, to truncate
        sys     6               # open
        blt     a0, x0, fail
        mv      s0, a0

        la      a1, note
        li      a2, 23
        sys     9               # write
        blt     a0, x0, fail

        mv      a0, s0
        li      a1, 0
        li      a2, 0           # from the start
        sys     10              # lseek
        blt     a0, x0, fail

        mv      a0, s0
        la      a1, buffer
        li      a2, 64
        sys     8               # read
        blt     a0, x0, fail

        mv      a2, a0          # as many bytes as were read
        li      a0, 1           # the terminal
        sys     9               # write
        blt     a0, x0, fail

        mv      a0, s0
        sys     7               # close
        blt     a0, x0, fail

        la      a0, draft
        li      a1, 5
        li      a2, 22          # to write, to create, exclusive
        sys     6               # open
        blt     a0, x0, fail
        mv      s0, a0

        la      a0, draft
        li      a1, 5
        sys     13              # unlink: it is held, and has no name any more
        blt     a0, x0, fail

        mv      a0, s0
        la      a1, note
        li      a2, 23
        sys     9               # write
        blt     a0, x0, fail

        li      a0, 0
        sys     1               # exit closes draft

fail:   sub     a0, x0, a0
        sys     1               # exit

todo:   .ascii  "todo"
draft:  .ascii  "draft"
note:   .ascii  "buy bread\nfeed the cat\n"
buffer: .bss    64
