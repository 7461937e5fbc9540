(* The rows of a report's check, by the proved machine of plantbal_check.ml.  What stands here isn't
   proved: records split as CSV, fields taken to bytes, findings written as rows.  No function's
   stack grows with the input. *)

open Plantbal_check

(* ---- CSV, as the crate csv reads it: a quote counts only at a field's beginning and within a
   quoted field; LF, CR and CR LF end a record; a line without any byte is no record. *)

type place = Record_begins | Field_begins | In_field | In_quotes | After_quote

let each_record data act =
  let length = String.length data in
  let begins = if length >= 3 && String.sub data 0 3 = "\xef\xbb\xbf" then 3 else 0 in
  let field = Buffer.create 4096 and fields = ref [] in
  let end_field () = fields := Buffer.contents field :: !fields; Buffer.clear field in
  let end_record () = end_field (); let record = List.rev !fields in fields := []; act record in
  let unquoted c =
    match c with
    | ',' -> end_field (); Field_begins
    | '\n' | '\r' -> end_record (); Record_begins
    | _ -> Buffer.add_char field c; In_field in
  let step place c =
    match place, c with
    | Record_begins, ('\n' | '\r') -> Record_begins
    | (Record_begins | Field_begins), '"' -> In_quotes
    | In_quotes, '"' -> After_quote
    | In_quotes, _ -> Buffer.add_char field c; In_quotes
    | After_quote, '"' -> Buffer.add_char field c; In_quotes
    | _, _ -> unquoted c in
  let place = ref Record_begins in
  for i = begins to length - 1 do place := step !place (String.unsafe_get data i) done;
  if !place <> Record_begins then end_record ()

(* ---- Fields as the machine takes them, and rows as check writes them *)

let bytes_of field =
  let rec back i bytes =
    if i < 0 then bytes else back (i - 1) (Char.code (String.unsafe_get field i) :: bytes) in
  back (String.length field - 1) []

let text_of bytes =
  let text = Buffer.create 32 in
  List.iter (fun byte -> Buffer.add_char text (Char.chr byte)) bytes;
  Buffer.contents text

let test_word = function
  | TClass -> "1,class" | TWitness -> "2,witness" | TBalance -> "3,balance" | TPrice -> "4,price"
  | TBox -> "5,box" | TDof -> "6,dof" | TGap -> "7,gap" | TState -> "8,state"
  | TBounds -> "9,bounds" | TStatistic -> "10,statistic" | TNodal -> "11,nodal"
  | TVerdict -> "12,verdict" | TLeast -> "13,least"

let code_word = function
  | CKind -> "1,kind" | CFields -> "2,fields" | CName -> "3,name" | CNumber -> "4,number"
  | CUnknown -> "5,unknown" | CDuplicate -> "6,duplicate" | CWord -> "7,word" | CShape -> "8,shape"
  | CCount -> "9,count" | CEnv -> "10,env" | CEnded -> "11,ended"

let decimal = Big_int_Z.string_of_big_int

let row_of = function
  | Yes (period, round) -> [ "yes"; text_of period; decimal round ]
  | No (period, round, fault, name) ->
      [ "no"; text_of period; decimal round; test_word fault.failed; text_of name;
        decimal fault.stated; decimal fault.found ]
  | NotRead (number, code) -> [ "unreadable"; string_of_int number; code_word code ]

let is_yes = function Yes _ -> true | No _ | NotRead _ -> false

(* The rows of a report, and whether each is a yes. *)
let judge data =
  let rows = Buffer.create 4096 and good = ref true in
  let told = function
    | None -> ()
    | Some finding ->
        good := !good && is_yes finding;
        Buffer.add_string rows (String.concat "," (row_of finding));
        Buffer.add_char rows '\n' in
  let machine = ref start and number = ref 1 in
  each_record data (fun record ->
    let after, finding = next bytes_of !machine !number record in
    machine := after;
    incr number;
    told finding);
  told (last !machine !number);
  (Buffer.contents rows, !good)
