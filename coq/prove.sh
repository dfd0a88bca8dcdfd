#!/usr/bin/env bash
# prove.sh FILE CERT     proves in Coq that a certificate is right: Coq's kernel runs the checker, so neither the checker's
#                        extraction nor its compiling need be trusted. Files of up to 12 inputs take from seconds to minutes.
#                        Call `make` before.
# It prints the theorem in words. If the certificate is invalid or a text is refused it prints the answer. The statuses are
# ordercheck's, with 5 for what can't be read, and 6 if Coq or the script fails.
set -Eeuo pipefail
trap 'exit 6' ERR
export LC_ALL=C SHELL=/bin/sh
[ $# = 2 ] || { echo "usage: coq/prove.sh FILE CERT" >&2; exit 2; }
for file in "$1" "$2"; do
    [[ -r $file && ! -d $file ]] || { echo "prove.sh: Device" >&2; exit 5; }
done
fail() { echo "prove.sh: $*" >&2; exit 6; }
here=$(cd "$(dirname "${BASH_SOURCE[0]}")" && pwd)
made=$(mktemp -d)
trap 'rm -rf "$made"' EXIT

# text NAME FILE: defines a text of Coq that has the file's bytes, in strings that are short enough for any stack
text() {
    printf 'Definition %s : text := flat_map list_ascii_of_string [' "$1"
    split -b 4096 --filter='printf \"; sed "s/\"/\"\"/g"; printf "\"%%string; "' < "$2"
    printf '""%%string].\n'
}

{
    echo 'From Orders Require Import CheckerProof.'
    text file "$1"
    text certificate "$2"
    cat << 'END'
Definition answer := Eval vm_compute in check file certificate.
Theorem answered : check file certificate = answer.
Proof. vm_cast_no_check (eq_refl answer). Qed.
Definition order_and_pairs := Eval vm_compute in order_and_pairs_of certificate.
Theorem listed : order_and_pairs_of certificate = order_and_pairs.
Proof. vm_cast_no_check (eq_refl order_and_pairs). Qed.

Definition statement := Eval cbv delta [answer order_and_pairs] iota in
  match answer, order_and_pairs with
  | Valid N _, Some (o, ps) => exists v, read_pla file = Read v /\ is_order (variables v) o /\ keeps o ps
      /\ has_diagram o (functions_of v) (N.to_nat N) /\ none_has_fewer (variables v) (functions_of v) ps (N.to_nat N)
  | _, _ => True
  end.
Theorem proved_here : statement.
Proof. first [exact I | exact (proved file certificate _ _ _ _ answered listed)]. Qed.

Definition order_text := Eval vm_compute in string_of_list_ascii
  match order_and_pairs with Some (o, _) => flat_map (fun x => chars " " ++ decimal (N.of_nat x)) o | None => [] end.
Definition answer_text := Eval vm_compute in string_of_list_ascii (answer_line answer).
Set Printing Width 1000.
Print answer_text.
Print order_text.
Print Assumptions proved_here.
END
} > "$made/Answer.v"
said=$(coqc -q -R "$here" Orders "$made/Answer.v")
answer=$(sed -n 's/^answer_text = "\(.*\)"%string.*/\1/p' <<< "$said")
order=$(sed -n 's/^order_text = "\(.*\)"%string.*/\1/p' <<< "$said")
case $answer in
    valid*)
        [[ $said == *"Closed under the global context"* ]] || fail "the proof has axioms"
        read -r _ nodes _ pairs <<< "$answer"
        echo "this file's functions have an ordered diagram of $nodes nodes under the order$order," \
            "and none${pairs:+ under an order that keeps the pairs of the certificate} has fewer" ;;
    invalid*) echo "$answer"; exit 1 ;;
    "") fail "Coq prints no answer" ;;
    *) echo "prove.sh: $answer" >&2; exit 3 ;;
esac
