(* For tests: many reports in one process.  Each is a line with its number of bytes and then these
   bytes; what is said of it is its rows and a line with a dot. *)

let () =
  set_binary_mode_in stdin true;
  set_binary_mode_out stdout true;
  try
    while true do
      let report = really_input_string stdin (int_of_string (input_line stdin)) in
      print_string (fst (Verify.judge report));
      print_string ".\n"
    done
  with End_of_file -> ()
