#!/usr/bin/env bash
# Which wrong bodies are to be tried, after which change: those of which the crate, what its libraries say, or the edit itself is another. What
# a crate is, the Rattle kit says: without it this is skipped.
set -u
top=$(cd "$(dirname "${BASH_SOURCE[0]}")/.." && pwd) || exit 1
if [ -n "${QUICK:-}" ] || ! command -v rt >/dev/null 2>&1; then
    echo 'this needs the Rattle kit'
    exit 77
fi
room=$(mktemp -d) || exit 1
trap 'rm -rf "$room"' EXIT

mkdir "$room/tree" || exit 1
cd "$top" || exit 1
tar -c --exclude=out --exclude=.git . | tar -x -C "$room/tree" || exit 1
cd "$room/tree" && git init -q . || exit 1

fail() {
    echo "$*" | tee -a "$room/failed"
}

listed() {
    python3 tests/gate/wrong_bodies.py --list "$@"
}

# The crates of which edits are to be tried.
to_be_tried() {
    listed | sed 's/^[^ ]* //; s|/.*||' | sort -u | tr '\n' ' '
}

expect() { # expect WHAT CRATES
    local found
    found=$(to_be_tried)
    [ "$found" = "$2" ] || fail "$1: edits of '$found' are to be tried, in place of '$2'"
}

# Makes a change in a file of a tree of its own, whose other files are those of the first tree, and asks what is to be tried then.
changed() { # changed FILE SED CRATES
    local copy
    while [ "$(jobs -rp | wc -l)" -ge "$(nproc)" ]; do
        wait -n
    done
    copy=$(mktemp -d "$room/copy.XXXXXX") && cp -al . "$copy/tree" || exit 1
    (
        cd "$copy/tree" || exit 1
        sed -i "$2" "$1"
        ! cmp -s "$1" "$room/tree/$1" || fail "$1: nothing was changed by $2"
        expect "$1 $2" "$3"
    ) &
}

: >tests/gate/refused.txt
expect 'nothing was refused yet' 'authority_walk ccr command_parts constraints der_lite event_log example_frames exports feed file_kinds issuing json_texts log_output payload_commands payload_lists payloads point_validation points prefix_texts prefixes resource_certificates resources rpkiobject rpkirtr rpkirtr_c rpkirtrd_cli rpkirtrd_start rsa_sha256 rtr_commands rtr_daemon rtr_ends rtr_pdu rtr_server rtr_world sd_notify session_names signed_objects slurm sources status_pages status_server tcp_table trust_anchors upstreams vrps world_scripts '
listed --all >tests/gate/refused.txt
expect 'all was refused' ''

# a comment
changed crates/rtr_ends/src/router.rt '1s|$| Changed.|' ''
# the body of a function, and a proof
changed crates/rtr_ends/src/router.rt 's|self.machine.out.pull(room)|self.machine.out.pull(&mut *room)|' 'rtr_ends '
changed crates/rtr_ends/proofs/router/Router/receive/Answers.antt '$s|$| |' 'rtr_ends '
# a contract, a definition, and a type
changed crates/rtr_ends/src/router.rt 's|ensures within { result ≤ |ensures within { 0 + result ≤ |' 'feed rpkirtr_c rtr_commands rtr_ends rtr_server rtr_world upstreams '
changed crates/rtr_pdu/specs/Version.antt '$s|$|\nmore : ℕ\nmore = 1|' 'feed rpkirtr rpkirtr_c rpkirtrd_cli rpkirtrd_start rtr_commands rtr_daemon rtr_ends rtr_pdu rtr_server rtr_world upstreams world_scripts '
changed crates/rpkirtr_cli/src/lib.rt '$s|$|\npub struct More;|' 'rpkirtr '
# a lemma that is named from above, and one that is not
changed crates/rtr_ends/proofs/TableLaws.antt '$s|$| |' 'rpkirtr_c rtr_commands rtr_ends rtr_server rtr_world upstreams '
changed crates/rtr_ends/proofs/LinkCells.antt '$s|$| |' 'rtr_ends '
# a new function that nothing names
changed crates/vrps/src/log.rt 's|^    /// How many versions before|    /// One.\n    pub fn one_alone(\&self) -> u8 {\n        1\n    }\n\n&|' 'vrps '
# the libraries of a crate
changed crates.txt 's|^vrps: .*|& arrayvec|' 'ccr command_parts event_log exports feed log_output payload_commands payload_lists rpkiobject rpkirtr rpkirtr_c rpkirtrd_cli rpkirtrd_start rtr_commands rtr_daemon rtr_ends rtr_server rtr_world session_names slurm sources status_pages status_server upstreams vrps world_scripts '
# an edit
changed crates/vrps/wrong/a_group_has_no_records.edit '$s|$| |' 'vrps '
wait
# it alone is tried
echo ' ' >>crates/vrps/wrong/a_group_has_no_records.edit
[ "$(listed | sed 's/^[^ ]* //')" = vrps/a_group_has_no_records ] || fail 'not the changed edit alone is to be tried'
[ ! -e "$room/failed" ]
