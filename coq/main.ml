(* plantbal-verify < report.csv: the rows and the status of `plantbal check`.

   Nothing is written before the whole input is read, and each exception that the system raises ends
   in a status. *)

external end_without_memory : unit -> unit = "verify_end_without_memory"

let most_bytes = 67_108_864

(* The statuses of plantbal; the name of one from 2 on is written to standard error. *)
let fail status name = prerr_endline name; exit status

(* Standard input to its end, or to one byte more than may be read. *)
let read_all () =
  let data = Buffer.create 65536 and chunk = Bytes.create 65536 in
  let rec more () =
    let room = most_bytes + 1 - Buffer.length data in
    let count = input stdin chunk 0 (min room (Bytes.length chunk)) in
    if count > 0 then (Buffer.add_subbytes data chunk 0 count; more ()) in
  more ();
  Buffer.contents data

let check () =
  match read_all () with
  | exception Sys_error _ -> fail 3 "ReadFault"
  | data when String.length data > most_bytes -> fail 5 "TooLarge"
  | data ->
      let rows, good = Verify.judge data in
      (match print_string rows; flush stdout with
       | exception Sys_error _ -> close_out_noerr stdout; fail 4 "WriteFault"
       | () -> exit (if good then 0 else 1))

let () =
  end_without_memory ();
  Gc.set { (Gc.get ()) with minor_heap_size = 1_000_000; space_overhead = 200 };
  set_binary_mode_in stdin true;
  set_binary_mode_out stdout true;
  Sys.set_signal Sys.sigpipe Sys.Signal_ignore;
  match Sys.argv with
  | [| _ |] -> (try check () with Out_of_memory -> fail 6 "NoMemory")
  | _ ->
      prerr_endline "plantbal-verify: it takes no words: plantbal-verify < report.csv";
      fail 2 "Usage"
