divert(-1)
; Macros for guests, for GNU m4: tools/assemble runs it on a source whose name ends in .m4, or type
;     m4 -I guests guests/greeter.s.m4 > greeter.s
; Each macro acts only where `(' follows its name, so that a label or a word may have that name too. In a comment
; nothing is a macro. An unknown name ends m4 with a line that says so.
;
;     call(read)                   the number of a call, for SYS
;     refusal(NoSlot)              what a refused call answers, as -12: ADDI rX, rZ, refusal(NoSlot) where rZ is 0
;     pages(share, 1, 3)           an item, of the pages 1 and 2: 32 hexadecimal digits
;     slots(leave_out, 0, 64)      an item, of slots
;     uid(copy)                    an item, of the credential
;     closed()                     two items: leave out all slots and the uid, as a closed context wants it
;     byte(10) half(10) word(-1)   a number as one, four or eight bytes
;     text(`hello, world')         the bytes of a text of printable characters, but ` and '
;     zeros(8)                     so many bytes of zeros
;     page(2)                      the address of a page
;     size(page)                   4096: of a page, a word, an item, a reply, the console; how many slots and contexts
changecom(`;')

; lwc_name(KIND, NAME): the number of a name, which lwc_names has noted.
define(`lwc_name', `lwc_known(`$1', translit(`$2', ` '))')
define(`lwc_known', `ifdef(`lwc_$1_$2', `indir(`lwc_$1_$2')', `errprint(__file__:__line__: there is no $1 `$2'
)m4exit(1)')')
define(`lwc_names', `ifelse(`$2', `', `', `define(`lwc_$1_$2', `$3')lwc_names(`$1', shift(shift(shift($@))))')')

lwc_names(`call', open, 1, close, 2, dup, 3, read, 4, write, 5, map, 6, unmap, 7, getuid, 8, setuid, 9, exit, 10,
    create, 16, switch, 17, restrict, 18, overlay, 19, on_behalf, 20, trap, 21, fuel, 24)
lwc_names(`refusal', BadCall, -2, BadFd, -3, WrongKind, -4, BadAddress, -5, BadRange, -6, BadMode, -7, Overlap, -8,
    TooManyItems, -9, NotCovered, -10, TooManyContexts, -11, NoSlot, -12, NoSlotThere, -13, NoFrame, -14,
    NotPermitted, -15, NoFile, -16, TooManyGroups, -17, TooManyRanges, -18, ReplyFull, -19, TooLong, -20,
    ReadOnly, -21, Trapped, -22, NotFresh, -23)
lwc_names(`mode', copy, 0, share, 1, leave_out, 2, read_only, 3)
lwc_names(`size', page, 4096, word, 8, item, 16, reply, 4096, console, 65536, slots, 64, items, 32, contexts, 32)

define(`call', `ifelse(`$#', 0, ``$0'', `lwc_name(`call', `$1')')')
define(`refusal', `ifelse(`$#', 0, ``$0'', `lwc_name(`refusal', `$1')')')
define(`size', `ifelse(`$#', 0, ``$0'', `lwc_name(`size', `$1')')')
define(`page', `ifelse(`$#', 0, ``$0'', `eval(($1) * lwc_size_page)')')

; lwc_quoted(TEXT): the text as it is, so that what follows it does not become a part of its last word.
define(`lwc_quoted', ``$1'')
define(`lwc_bytes', `format(`%02x%02x%02x%02x', eval(($1) & 255), eval(($1) >> 8 & 255), eval(($1) >> 16 & 255),
    eval(($1) >> 24 & 255))')
define(`byte', `ifelse(`$#', 0, ``$0'', `lwc_quoted(format(`%02x', eval(($1) & 255)))')')
define(`half', `ifelse(`$#', 0, ``$0'', `lwc_quoted(lwc_bytes(`$1'))')')
define(`word', `ifelse(`$#', 0, ``$0'',
    `lwc_quoted(lwc_bytes(`$1')`'ifelse(substr(`$1', 0, 1), -, `ffffffff', `00000000'))')')
define(`zeros', `ifelse(`$#', 0, ``$0'', `lwc_quoted(format(`%0*d', eval(2 * ($1)), 0))')')

; lwc_item(KIND, MODE, FROM, TO)
define(`lwc_item', `lwc_quoted(lwc_bytes(`$1')`'lwc_bytes(lwc_name(`mode', `$2'))`'lwc_bytes(`$3')`'lwc_bytes(`$4'))')
define(`pages', `ifelse(`$#', 0, ``$0'', `lwc_item(0, `$1', `$2', `$3')')')
define(`slots', `ifelse(`$#', 0, ``$0'', `lwc_item(1, `$1', `$2', `$3')')')
define(`uid', `ifelse(`$#', 0, ``$0'', `lwc_item(2, `$1', 0, 1)')')

define(`closed', `ifelse(`$#', 0, ``$0'', `slots(leave_out, 0, size(slots))uid(leave_out)')')

; The printable characters from 32 on; in the places of the two quotes, which no text has, are blanks.
define(`lwc_printable',
` !"#$%& ()*+,-./0123456789:;<=>?@ABCDEFGHIJKLMNOPQRSTUVWXYZ[\]^_ abcdefghijklmnopqrstuvwxyz{|}~')
define(`lwc_character', `lwc_quoted(format(`%02x', eval(32 + index(defn(`lwc_printable'), `$1'))))')
define(`text', `ifelse(`$#', 0, ``$0'', `lwc_quoted(patsubst(`$1', `.', `lwc_character(`\&')'))')')
divert(0)dnl
