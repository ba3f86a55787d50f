/* The calls of a guest as functions. lwc.h includes this once with LWC_NAME(call) as lwc_call, and lwc_trapped.h with
   other names for a context that a monitor has trapped. LWC_CALL(number, a, b, c) makes a call of three arguments.
   There is no guard against a second inclusion. */

/* Opens file number `file` of the image at its beginning. Answers its slot, or NoFile, NotPermitted, NoSlot. */
LWC_INLINE long LWC_NAME(open)(long file) { return LWC_CALL(1, file, 0, 0); }

/* Empties a slot. Answers 0, or BadFd. */
LWC_INLINE long LWC_NAME(close)(long slot) { return LWC_CALL(2, slot, 0, 0); }

/* Copies a descriptor into the lowest empty slot. Answers that slot, or BadFd, NoSlot. */
LWC_INLINE long LWC_NAME(dup)(long slot) { return LWC_CALL(3, slot, 0, 0); }

/* Reads up to `size` bytes, at most 4096, of a file or of a request. Answers how many there were, 0 at the end; or
   BadFd, WrongKind, TooLong, BadAddress, ReadOnly, NoFrame, and then no byte was read. */
LWC_INLINE long LWC_NAME(read)(long slot, void *to, long size) { return LWC_CALL(4, slot, to, size); }

/* Appends `size` bytes, at most 4096, to the console or to a reply. Answers `size`, or BadFd, WrongKind, TooLong,
   BadAddress, ReplyFull (a reply has at most 4096 bytes in all, the console 65536), and then no byte was written. */
LWC_INLINE long LWC_NAME(write)(long slot, const void *from, long size) { return LWC_CALL(5, slot, from, size); }

/* Maps the pages `from` up to and without `to`: each is zeros from now on. Answers 0, or BadRange, TooManyRanges. */
LWC_INLINE long LWC_NAME(map)(long from, long to) { return LWC_CALL(6, from, to, 0); }

/* Makes the pages absent. Answers 0, or BadRange, TooManyRanges. */
LWC_INLINE long LWC_NAME(unmap)(long from, long to) { return LWC_CALL(7, from, to, 0); }

/* Answers the uid of the context. It is never refused. */
LWC_INLINE long LWC_NAME(getuid)(void) { return LWC_CALL(8, 0, 0, 0); }

/* Becomes another uid, which only uid 0 may. Answers 0, or BadRange, NotPermitted. */
LWC_INLINE long LWC_NAME(setuid)(long uid) { return LWC_CALL(9, uid, 0, 0); }

/* Takes keys from the capability in a slot: it keeps what `count` items name, of mode LWC_COPY. Answers 0, or BadFd,
   WrongKind, TooManyItems, BadAddress, BadMode, BadRange, Overlap. */
LWC_INLINE long LWC_NAME(restrict)(long slot, const struct lwc_item *items, long count) {
  return LWC_CALL(18, slot, items, count);
}

/* Takes over what `count` items name from the context in a slot, by a copy, a copy that may only be read, or in common.
   Answers 0, or BadFd, WrongKind, TooManyItems, BadAddress, BadMode, BadRange, Overlap, NotCovered, TooManyGroups,
   TooManyRanges; under a monitor Trapped too. */
LWC_INLINE long LWC_NAME(overlay)(long slot, const struct lwc_item *items, long count) {
  return LWC_CALL(19, slot, items, count);
}

/* Traps the context in a slot: from now on its calls come to this one. Only under `lwcrun monitor`. Answers 0, or
   BadCall elsewhere, BadFd, WrongKind, NotCovered, Trapped, NotFresh. */
LWC_INLINE long LWC_NAME(trap)(long slot) { return LWC_CALL(21, slot, 0, 0); }
