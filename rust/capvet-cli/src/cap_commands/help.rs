// crates/cap_commands/src/help.rt without its contracts, by tools/erase: that text is proved, this one is only tested.
//! The texts of help.

/// The version that `--version` prints. `-dev` says that it isn't released.
pub(crate) const VERSION: &str = "2.0.0-dev";

/// The help of the program, after the list of its commands.
pub(crate) const PROGRAM_NOTES: &str = "\
The input is a stream of framed messages. A framed message is a table with the sizes of its
segments, followed by the segments in words of 8 bytes. Without FILE a command reads standard input;
'-' is the name of a file. With --one a command demands exactly one message.

'capvet explain' says what a refusal means, and what an input looks like that is no such stream:
gzip, TLS, text or packed. With --files the commands 'segments', 'vet', 'explain', 'check' and
'hash' read many files, and each line has the name of its file. For CSV, archives, and trees with
texts, the package for Python has 'python -m capvet'.

With --json 'vet', 'explain', 'check' and 'hash' print an object for each message. It has 'message'
and 'verdict', and for a refusal 'reason', with 'segment', 'word' and 'pointer' if it names a
pointer. 'explain' adds 'sentence', 'path' if it names a pointer, and 'cycle' for a cycle. An input
that breaks off has its line on standard error.

Exit status:
  0  every message was accepted, and is canonical for 'check'; or every word was copied;
     or the input is empty
  1  a message was refused, is not canonical for 'check' or has a capability for 'canon' or 'hash';
     or the input is cut short, or is not a stream of messages within the limits, or not one
     message with '--one'
  2  the command line is wrong
  3  a file does not open, reading or writing failed, or memory ran out

Example:
  $ capvet vet examples/contacts.bin
  message 0: accepted charge 391 depth 11 pointers 125 caps 0";

/// The help of `segments`, after the list of its options.
pub(crate) const SEGMENTS_NOTES: &str = "\
'capvet explain' says why a message can't be read, and which other format an input looks like.

Example:
  $ capvet segments examples/contacts.bin
  message 0: segments 1 words 392
  segment 0: 392
  root 0000000001000300";

/// The help of `vet`, after the list of its options.
pub(crate) const VET_NOTES: &str = "\
For an accepted message it prints four numbers. The charge is the number of words that a full
traversal reads; a target that is reached twice counts twice. The depth is the deepest level of an
object; the structs of a list are one level below the list. Then come the numbers of pointers, null
pointers too, and of capabilities. For a refused message it prints the reason, and the SEGMENT:WORD
of the first pointer that is wrong. 'capvet explain' says what the reason means, and which other
format an input looks like.

With --strict a message is also refused in a form that common readers reject. ManySegments: it has
512 segments. NullPad or CapabilityPad: a landing pad of one word is zero, or a capability.
EmptySegment: a pointer leads into a segment without words. With --unamplified the charge may be at
most the words of the message's segments plus 4096. A service should use both options.

With --exclusive a message is also refused, as Overlap, if a pointer leads to a word that is already
in use: the root word, a word of the same pointer, or a word of an earlier pointer. The charge is
then less than the words of the message, apart from list elements that have no bits or no words.

Example:
  $ capvet vet --depth 3 examples/contacts.bin
  message 0: refused DepthLimit at 0:7 pointers 3";

/// The help of `explain`, after the list of its options.
pub(crate) const EXPLAIN_NOTES: &str = "\
After the line of 'vet', a refused message has lines that explain the refusal. They begin with the
path to the pointer, as 'get' takes it, and the byte of the pointer in the message and in the input.
A path of more than 24 steps is shortened in its middle, and whole with --json. Then comes the
pointer word with its form and its fields, and so does each word of its landing pad. The next lines
have the words of its target, its tag if it is a list of structs, and the segment that the pointer
leads into, with its length. Then come what is exceeded, if something is, and the reason as a
sentence. If a limit is passed, a line 'cycle' names the last pointer word that the path returns to,
if there is one. For Overlap a last line, 'first used by', names the earlier pointer that uses the
same word, if there is one.

If the input breaks off inside a message, or a message is too large, standard error has the line of
this fault. Lines after it say where the message begins, what its table says, and the reason. If the
input looks like gzip, TLS, text or a packed stream, a last line says so, as a guess. The options
are those of 'vet', and --canonical.

An accepted message that is not strict or is amplified has a line that 'filter', the guard and the
libraries refuse it, and then the same lines. With --strict and --unamplified, it is refused here.

With --canonical an accepted message has the line of 'check' after all this. If it is not canonical,
the line has the first reason and the place of the pointer: the first one, in preorder, that is not
as in the canonical copy. The same lines follow, and the status is that of 'check'.

'pointers N' counts the pointers that were looked at, the named one included. In a path, pN is
pointer N and iN is element N, both counted from 0. A place is SEGMENT:WORD, both counted from 0,
and 'A to B' includes both places. A word in hex is its bytes, in the order of the unpacked input.

Example:
  $ capvet explain --depth 3 examples/contacts.bin
  message 0: refused DepthLimit at 0:7 pointers 3
    path /p0/i0/p0
    byte 64 of the message, byte 64 of the input
    pointer bd0000000a010000 list of bytes, offset 47, elements 33
    target 0:55 to 0:59, words 5
    leads into segment 0, words 392
    level 4, limit 3
    reason the target is at a deeper level than the limit allows";

/// The help of `filter`, after the list of its options.
pub(crate) const FILTER_NOTES: &str = "\
It writes an accepted message in one plain frame: a table with zero padding, and all its segments as
they came. This goes out before the next message is read. A message is accepted if 'vet --strict
--unamplified' accepts it; --allow-nonstrict and --allow-amplified each leave out one of these two.
For a refused message the line of 'vet' goes to standard error, and the run goes on.

With --stop the run ends after the first refused message, for a protocol in which a missing message
breaks the rest. With --pack the output is packed, its table and each segment by itself. With
--exclusive a message is refused as in 'vet'. 'capvet explain' says what a refusal means.

Example:
  $ cat examples/cycle.bin examples/contacts.bin | capvet filter | capvet vet
  message 0: refused DepthLimit at 0:0 pointers 65
  message 0: accepted charge 391 depth 11 pointers 125 caps 0";

/// The help of `dump`, after the list of its options.
pub(crate) const DUMP_NOTES: &str = "\
After the line of 'vet', an accepted message has the lines of its tree. A node has one line, then
its own words and its children, two spaces deeper. The steps /pN and /iN of a PATH lead to the
children pN and iN (see 'capvet help get'). 'capvet explain' says what a refusal means, and which
other format an input looks like. The package for Python shows the tree with texts, and as JSON:
'python -m capvet tree'.

A node 'struct 1 6' has 1 word of data and 6 pointers. A node 'structs 7 1 6' is a list of 7 such
structs, and 'pointers 3' a list of 3 pointers. A node 'list 2 33' has 33 values of code 2. Values
of the codes 0 to 5 have 0, 1, 8, 16, 32 and 64 bits. The digits of a word are its 8 bytes in their
order, so the numbers in it are little-endian.

Example:
  $ capvet dump examples/contacts.bin | head -n 6
  message 0: accepted charge 391 depth 11 pointers 125 caps 0
  root struct 1 3
    d0 50f708d100000000
    p0 structs 7 1 6
      i0 struct 1 6
        d0 0000000000000000";

/// The help of `get`, after the list of its options.
pub(crate) const GET_NOTES: &str = "\
PATH is '/' for the root, or a list of steps. The step '/pN' leads to pointer N of a struct, and
'/iN' to element N of a list of pointers or structs, both counted from 0. The node is printed
without the nodes below it. A message that has no node at PATH is accepted all the same: 'get'
prints 'none', and the exit status stays as it is. 'capvet explain' says what a refusal means, and
which other format an input looks like.

The command 'capnp compile -ocapnp SCHEMA' prints the place of each field in its struct. There
ptr[N] is the step '/pN', and bits[A, B) are in the words d0, d1 and so on. See 'capvet help dump'
for the line of a node. 'python -m capvet tree' of the package for Python also shows texts.

Example:
  $ capvet get /p0/i1 examples/contacts.bin
  message 0: found
  node struct 1 6
    d0 0a6e000001000000";

/// The help of `check`, after the list of its options.
pub(crate) const CHECK_NOTES: &str = "\
A message is canonical if it has one segment, with exactly the words that 'canon' writes after the
table of its copy. For a refused message it prints the line of 'vet'.

'capvet explain --canonical' says why a message is not canonical. It also says what a refusal means,
and which other format an input looks like.

Example:
  $ capvet canon examples/contacts.bin | capvet check
  message 0: canonical";

/// The help of `canon`, after the list of its options.
pub(crate) const CANON_NOTES: &str = "\
A copy is a message of one segment; its table is the first 8 bytes. Two messages have equal copies
exactly if they have the same content, apart from zeros and null pointers at the end of structs. The
command ends at the first message that is refused or has a capability. To hash copies, use 'hash'.
'capvet explain' says what a refusal means, and which other format an input looks like.

Example:
  $ capvet canon examples/contacts-many-segments.bin | capvet segments | head -n 1
  message 0: segments 1 words 389";

/// The help of `hash`, after the list of its options.
pub(crate) const HASH_NOTES: &str = "\
The hash is that of the bytes which 'canon' writes after the table of the copy, as 64 digits. So two
messages with the same content have the same hash, apart from zeros and null pointers at the end of
structs. A message with a capability has no copy, and the line has the place of its first one. For
a refused message it prints the line of 'vet'. A program should compare hashes only if the exit
status is 0. With --one the line of a hash is the 64 digits alone. 'capvet explain' says what a
refusal means.

Example:
  $ capvet hash examples/contacts.bin
  message 0: sha256 da5b2d724a838dca43e56e40db89de68bba3d3772cd838de0fa7e9029481403e";

/// The help of `pack`, after the list of its options.
pub(crate) const PACK_NOTES: &str = "\
If the input ends inside a word, 'capvet explain' says in which message.

Example:
  $ capvet pack examples/contacts.bin | capvet vet --packed
  message 0: accepted charge 391 depth 11 pointers 125 caps 0";

/// The help of `unpack`, after the list of its options.
pub(crate) const UNPACK_NOTES: &str = "\
If the input ends inside a packed group, 'capvet explain --packed' says in which message.

Example:
  $ capvet unpack examples/contacts.packed | capvet vet
  message 0: accepted charge 391 depth 11 pointers 125 caps 0";
