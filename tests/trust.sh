#!/bin/sh
# docs/TRUST.md has the right numbers: for each demand, the definitions that its statement rests on, down to the kit's, and their lines.
# `--write` puts the numbers there; `--read ROW` prints every definition that a row of the table rests on, with its comments; a row by its number, or by its statement's name.
cd "$(dirname "$0")/.." || exit 2
page=docs/TRUST.md
dir=$(mktemp -d) || exit 2
trap 'rm -rf "$dir"' EXIT

# DEMAND|WHAT IT SAYS|STATEMENT ..|PROOF ..: statements as CRATE.MODULE.NAME, and for each FILE:NAME of its proof.
exported=$(grep -lr '^#\[unsafe(no_mangle)\]' crates/export_*/src | sort | tr '\n' ' ')
cat >"$dir/roots" <<END
1|what every function answers and leaves behind|$exported|
1|what an event may change, and what it looks at|hermes.Locality.Demand1|crates/hermes/proofs/Locality.antt:confinement
2|each event is the source's action|hermes.Conformance.Demand2|crates/hermes/proofs/Conformance.antt:conformance
2|who gets what leaves|hermes.Recipients.WhoGets|crates/hermes/proofs/Recipients.antt:who-gets
2|who gets it, and with which bytes, as C asks|export_outgoing.Sent.AskedWhoGets export_outgoing.Sent.AskedBody|crates/export_outgoing/proofs/Sent.antt:asked-who-gets crates/export_outgoing/proofs/Sent.antt:asked-body
2|packets|packet_format.RoundTrip.WrittenReadsBack packet_format.RoundTrip.AcceptedIsWritten|crates/packet_format/proofs/RoundTrip.antt:written-reads-back crates/packet_format/proofs/RoundTrip.antt:accepted-is-written
2|packets, over the words that a caller passes|packet_words.ReadBack.WordsReadBack packet_words.ReadBack.AcceptedIsPacked|crates/packet_words/proofs/ReadBack.antt:words-read-back crates/packet_words/proofs/ReadBack.antt:accepted-is-packed
2|packets, as C calls the functions|export_packets.RoundTrip.PackedIsFetched export_packets.RoundTrip.FetchedIsPacked|crates/export_packets/proofs/RoundTrip.antt:packed-is-fetched crates/export_packets/proofs/RoundTrip.antt:fetched-is-packed
3|agreement|hermes.Agreement.Demand3|crates/hermes/proofs/Agreement.antt:agreement
3|the same, stated a second time from the papers|hermes.SecondReading.SecondDemand3|crates/hermes/proofs/SecondReading.antt:second-demand3
3|from one call to another, and lists of calls|check_air.Air.ThroughTheAir check_air.Air.AcceptedThroughTheAir check_air.Late.LateIsCalled check_air.Callers.CalledDemand3|crates/check_air/proofs/Air.antt:through-the-air crates/check_air/proofs/Air.antt:accepted-through-the-air crates/check_air/proofs/Late.antt:late-is-called crates/check_air/proofs/Callers.antt:called-demand3
Wish 1|what an ACK does, and that nobody waits once all have replied|hermes.LastAck.LastAckSettles hermes.LastAck.NobodyWaits|crates/hermes/proofs/LastAck.antt:last-ack-settles crates/hermes/proofs/LastAck.antt:nobody-waits
Wish 2|that a replay gives an overtaken save up, and that no record hangs|hermes.Overtaken.GivenUp hermes.Overtaken.NobodyHangs|crates/hermes/proofs/Overtaken.antt:given-up crates/hermes/proofs/Overtaken.antt:nobody-hangs
Wish 3|that a record settles|hermes.Settling.Settling|crates/hermes/proofs/Settling.antt:settling
Wish 3|by which events, whoever drives, and that no fewer will do|hermes.Recipe.RecipeSettles hermes.Recipe.AnyDriverSettles hermes.Tight.Tight hermes.Tight.Exact|crates/hermes/proofs/Settling.antt:recipe-settles crates/hermes/proofs/Settling.antt:any-driver-settles crates/hermes/proofs/Tight.antt:tight crates/hermes/proofs/Tight.antt:exact
Wish 4|that all of a packet in one pass is each message by itself|packet_format.Accepting.TakenIsFetched packet_format.Accepting.TakenIsGood packet_format.Accepting.AcceptedTells packet_format.Accepting.TakenLiesWithin|crates/packet_format/proofs/Accepting.antt:taken-is-fetched crates/packet_format/proofs/Accepting.antt:taken-is-good crates/packet_format/proofs/Accepting.antt:accepted-tells crates/packet_format/proofs/Accepting.antt:taken-lies-within
Wish 4|the same, as C calls the functions|export_packets.OnePass.OnePass export_packets.OnePass.ToldAtOnce export_packets.OnePass.NothingOutside export_packets.OnePass.PackedIsTaken export_accepted.OnePass.DeliversAll|crates/export_packets/proofs/OnePass.antt:one-pass crates/export_packets/proofs/OnePass.antt:told-at-once crates/export_packets/proofs/OnePass.antt:nothing-outside crates/export_packets/proofs/OnePass.antt:packed-is-taken crates/export_accepted/proofs/OnePass.antt:delivers-all
Wish 5|what an ask hands out; that a commit saves over what was seen, and is not refused in vain|hermes.Asking.EveryAskGives hermes.Asking.Asking|crates/hermes/proofs/Asking.antt:ask-gives crates/hermes/proofs/Asking.antt:asking
Wish 5|the same of a commit, as C calls the functions|check_air.Opened.CalledAsking|crates/check_air/proofs/Opened.antt:called-asking
Wish 6|that each rule orders timestamps strictly and totally, the version first|hermes_record.Order.OrderedAny hermes_record.Order.OrderedBoth|crates/hermes_record/proofs/Order.antt:ordered-by crates/hermes_record/proofs/Order.antt:ordered
Wish 6|that a packet for one rule is refused by 27 in a group with the other|packet_format.Accepting.OtherRuleRefused packet_format.Accepting.AcceptedByOne packet_format.RoundTrip.WrittenOtherRule|crates/packet_format/proofs/Accepting.antt:other-rule-refused crates/packet_format/proofs/Accepting.antt:accepted-by-one crates/packet_format/proofs/RoundTrip.antt:written-other-rule
Wish 6|the same, as C calls the functions|export_packets.OnePass.OtherRule|crates/export_packets/proofs/OnePass.antt:other-rule
END

grep -nE '^(pub )?(struct|enum|type) ' crates/*/src/*.rt >"$dir/types"
# the kit's text is in the folder rattle/ beside its first page; without it its lines are not counted
guide=$(rt doc 2>/dev/null) && kit=$(cd "$(dirname "$guide")/rattle" 2>/dev/null && pwd) || kit=''
[ -d "$kit/logic" ] || kit=''
# Option and Result are types of the kit
if [ -n "$kit" ]; then grep -nE '^pub enum (Option|Result)<' "$kit"/core/src/*.rt >>"$dir/types"; fi

count() { LC_ALL=C awk -v roots="$dir/roots" -v types="$dir/types" -v kit="$kit" "$@" -f tests/trust/reading.awk -f tests/trust/counting.awk; }

case ${1-} in
--read)
    row=${2-}
    # a statement's name stands for its row
    case $row in
    *[!0-9]*) row=$(grep -nE "\.$row[ |]" "$dir/roots" | head -n 1 | cut -d: -f1) ;;
    esac
    count -v mode=read -v row="$row"
    exit
    ;;
--write | '') ;;
*)
    echo "usage: sh tests/trust.sh [--write | --read ROW]   (ROW: a number, or a statement as Demand3)"
    exit 2
    ;;
esac

count -v mode=table >"$dir/table" && count -v mode=kit >"$dir/kit" || exit 1
# the page with both blocks anew: what stands between <!-- NAME --> and <!-- end NAME -->
if [ -n "$kit" ]; then blocks='table kit'; else blocks=table; fi
cp "$page" "$dir/page" || exit 1
for block in $blocks; do
    if ! grep -q "^<!-- $block -->\$" "$page" || ! grep -q "^<!-- end $block -->\$" "$page"; then
        echo "$page has no block $block"
        exit 1
    fi
    awk -v block="$block" -v text="$dir/$block" '
        $0 == "<!-- end " block " -->" { skip = 0 }
        !skip { print }
        $0 == "<!-- " block " -->" { while ((getline line < text) > 0) print line; skip = 1 }' "$dir/page" >"$dir/next" && mv "$dir/next" "$dir/page"
done
if [ "${1-}" = --write ]; then
    cp "$dir/page" "$page"
    exit
fi
if ! cmp -s "$page" "$dir/page"; then
    echo "$page is out of date: sh tests/trust.sh --write. < the page, > what is counted:"
    diff "$page" "$dir/page"
    exit 1
fi
[ -n "$kit" ] || echo "trust: the kit's text is not there, and its lines are not counted"
echo "trust: $(wc -l <"$dir/roots") statements, and what each rests on, as $page has it"
