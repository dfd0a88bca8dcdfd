(* ordercheck-coq FILE CERT: prints what the checker answers, with the lines and statuses of ordercheck. *)
open Checked

let usage = "Usage: ordercheck-coq FILE CERT"
let pla_limit = 16_777_216
let certificate_limit = 1_048_576

(* the bytes of an open file, at most one more than the limit *)
let contents channel limit =
  let buffer = Buffer.create 65536 and chunk = Bytes.create 65536 in
  let rec read left =
    let got = if left = 0 then 0 else input channel chunk 0 (min left 65536) in
    if got > 0 then (Buffer.add_subbytes buffer chunk 0 got; read (left - got))
  in
  read (limit + 1);
  let rec from k rest = if k < 0 then rest else from (k - 1) (Buffer.nth buffer k :: rest) in
  from (Buffer.length buffer - 1) []

(* as `check` in Checker.v: the certificate is read once the file has no fault *)
let answer file certificate =
  match read_pla (contents file pla_limit) with
  | Fault (line, kind) -> Refused (false, line, kind)
  | Read cover -> judge cover (contents certificate certificate_limit)

let run file certificate =
  let file = open_in_bin file in
  let found = answer file (open_in_bin certificate) in
  let line = String.of_seq (List.to_seq (answer_line found)) in
  match found with
  | Valid _ -> print_endline line; 0
  | Invalid _ -> print_endline line; 1
  | Refused _ -> prerr_endline ("ordercheck-coq: " ^ line); 3

let rec called files = function
  | "--" :: others -> called_with (files @ others)
  | ("--help" | "-h") :: _ -> print_endline usage; 0
  | ("--version" | "-V") :: _ -> print_endline "ordercheck-coq 1.0.0"; 0
  | word :: _ when word <> "-" && String.length word > 0 && word.[0] = '-' -> called_with []
  | word :: others when List.length files < 2 -> called (files @ [ word ]) others
  | others -> called_with (files @ others)

and called_with = function
  | [ file; certificate ] -> run file certificate
  | _ -> prerr_endline usage; 2

let () =
  exit
    (try
       Gc.set { (Gc.get ()) with minor_heap_size = 1 lsl 22; space_overhead = 150 };
       called [] (List.tl (Array.to_list Sys.argv))
     with
     | Out_of_memory | Stack_overflow -> prerr_endline "ordercheck-coq: OutOfMemory"; 4
     | Sys_error _ -> prerr_endline "ordercheck-coq: Device"; 5)
