#!/usr/bin/env bash
# Today's spelling of the names that respell.py doesn't see: those given by `as` in an import, one that a clause binds, and constructors.
set -e
cd "$(dirname "$0")/.."
sed -i -E 's/\bdigitOf\b/digit_of/g; s/\bheaderFields\b/header_fields/g; s/\bcheckedOf\b/checked_of/g; s/\bfiguresOfStream\b/figures_of_stream/g; s/\bflagOf\b/flag_of/g; s/\bwalkedBy\b/walked_by/g; s/\bpreimageOf\b/preimage_of/g' crates/*/src/*.rt
# Constructors that are declared several in a line, and names of laws that only a comment cites.
grep -rlE 'new-fact|known-node|all-of-node|any-of-node|yes-part|position-next|position-end' crates --include=*.antt --include=*.rt --include=*.edit | grep -v /out/ |
    xargs -r sed -i -E 's/\bnew-fact\b/new_fact/g; s/\bnot-known-node\b/not_known_node/g; s/\bknown-node\b/known_node/g; s/\ball-of-node\b/all_of_node/g; s/\bany-of-node\b/any_of_node/g; s/\byes-part\b/yes_part/g; s/\bposition-(next|end)\b/position_\1/g'
sed -i -E 's/\bisKnown\b/is_known/g' crates/*/specs/*.antt
