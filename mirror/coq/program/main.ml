(* The reference vetter, with commands and options of the program:

     vetter vet|dump|check|canon|segments [OPTIONS] FILE
     vetter get PATH [OPTIONS] FILE
     vetter difference [OPTIONS] FILE
     vetter pack|unpack FILE

   Of `explain --canonical` the command `difference` has the lines that begin with `message`.
   The options are --words N, --depth N, --strict, --unamplified, --exclusive and --packed. Nothing of this file is proved: it makes
   numbers of the command line and of the bytes of FILE, and writes the bytes that a function of Coq gives. The status is 3 if FILE
   isn't whole. *)
open Vetter

let rec positive_of x =
  if x = 1 then XH else if x land 1 = 1 then XI (positive_of (x lsr 1)) else XO (positive_of (x lsr 1))

let number_of x = if x = 0 then N0 else Npos (positive_of x)

let rec int_of_positive = function XH -> 1 | XO p -> 2 * int_of_positive p | XI p -> (2 * int_of_positive p) + 1

let int_of = function N0 -> 0 | Npos p -> int_of_positive p

let contents file =
  let input = open_in_bin file in
  let text = really_input_string input (in_channel_length input) in
  close_in input;
  List.init (String.length text) (fun at -> number_of (Char.code text.[at]))

(* a path as `get` takes it *)
let path_of text =
  let step part =
    let number = number_of (int_of_string (String.sub part 1 (String.length part - 1))) in
    if part.[0] = 'p' then Ptr number else Item number
  in
  if text = "/" then [] else List.map step (List.tl (String.split_on_char '/' text))

let () =
  let words = ref 8388608 and depth = ref 64 and plain = ref [] in
  let strict = ref false and unamplified = ref false and exclusive = ref false and packed = ref false in
  Arg.parse
    [ ("--words", Arg.Set_int words, "the word limit"); ("--depth", Arg.Set_int depth, "the depth limit");
      ("--strict", Arg.Set strict, "as the program"); ("--unamplified", Arg.Set unamplified, "as the program");
      ("--exclusive", Arg.Set exclusive, "as the program"); ("--packed", Arg.Set packed, "the file is packed") ]
    (fun word -> plain := !plain @ [ word ])
    "vetter COMMAND [PATH] [OPTIONS] FILE";
  let demanded = { must_be_strict = !strict; must_be_unamplified = !unamplified; must_be_exclusive = !exclusive } in
  let limits = { word_limit = number_of !words; depth_limit = number_of !depth; demanded } in
  let of_file write file = of_stream !packed write (contents file) in
  let given =
    match !plain with
    | [ "vet"; file ] -> of_file (vet_line limits) file
    | [ "dump"; file ] -> of_file (dump_lines limits) file
    | [ "check"; file ] -> of_file (check_line limits) file
    | [ "difference"; file ] -> of_file (difference_lines limits) file
    | [ "canon"; file ] -> of_file (canon_bytes limits) file
    | [ "segments"; file ] -> of_file outline_lines file
    | [ "get"; path; file ] -> of_file (get_lines (path_of path) limits) file
    | [ "pack"; file ] -> packed_bytes (contents file)
    | [ "unpack"; file ] -> unpacked_bytes (contents file)
    | _ -> prerr_endline "vetter: unknown command"; exit 2
  in
  match given with
  | Some bytes ->
      set_binary_mode_out stdout true;
      List.iter (fun byte -> output_char stdout (Char.chr (int_of byte))) bytes
  | None -> exit 3
