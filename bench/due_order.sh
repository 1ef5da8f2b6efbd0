#!/usr/bin/env bash
# Puts 100,000 moments of expiry into a `Due`, a tenth of them anywhere and the others about in falling order, and takes all of
# them out again: they must come in the order of the moments, and none before its moment. It is a test outside the gate: it is
# written into a copy of the crates that it needs, and proved and run there by `rt test`. Usage: due_order.sh [COUNT]
set -eu
count=${1:-100000}
here=$(cd "$(dirname "$0")/.." && pwd)
work=$(mktemp -d); trap 'rm -rf "$work"' EXIT
mkdir -p "$work/crates/due_order/src"
for crate in push_model clock_expiry; do
  mkdir "$work/crates/$crate"
  cp -r "$here/crates/$crate/src" "$here/crates/$crate/specs" "$work/crates/$crate"
  [ ! -d "$here/crates/$crate/proofs" ] || cp -r "$here/crates/$crate/proofs" "$work/crates/$crate"
done
{ grep -E '^(push_model|clock_expiry):' "$here/crates.txt"; echo 'due_order: clock_expiry push_model'; } >"$work/crates.txt"
cat >"$work/crates/due_order/src/lib.rt" <<RT
//! The order of many moments.
#![tactic(auto)]

#[cfg(test)]
mod tests {
    use clock_expiry::Due;
    use push_model::{Moment, MsgId};
    use std::process::Abort;
    use std::test::Fail;

    const COUNT: u64 = $count;

    // the number drawn after that one
    fn next(drawn: u64) -> u64 {
        drawn.wrapping_mul(6_364_136_223_846_793_005).wrapping_add(1_442_695_040_888_963_407)
    }

    // puts all of them in, and gives the sum of the moments
    fn put_all(dues: &mut Due) -> Result<u64, Fail> {
        let mut drawn = 1;
        let mut sum: u64 = 0;
        for number in 0..COUNT {
            drawn = next(drawn);
            let low = drawn >> 33;
            let expires = if number % 10 == 0 { low % COUNT } else { COUNT - number + low % 100 };
            sum = sum.wrapping_add(expires);
            dues.insert(expires, MsgId { shard: 0, number })?;
        }
        Ok(sum)
    }

    // takes the next one at its moment, and not a second before
    fn take_next(rt: &impl Abort, dues: &mut Due) -> Result<(u64, u64), Fail> {
        let soonest = dues.soonest().ok_or("a moment")?;
        if soonest > 0 {
            let before = Moment::new(soonest - 1).ok_or("a moment")?;
            assert!(rt; dues.take_due(before).is_none());
        }
        let now = Moment::new(soonest).ok_or("a moment")?;
        let id = dues.take_due(now).ok_or("an entry")?;
        Ok((soonest, id.number))
    }

    #[test]
    fn moments_come_in_order(rt: HostRuntime) -> Result<(), Fail> {
        let mut dues = Due::new(rt.alloc());
        let mut sum = put_all(&mut dues)?;
        let mut last = (0, 0);
        for place in 0..COUNT {
            let next = take_next(&rt, &mut dues)?;
            let behind = last.0 < next.0 || (last.0 == next.0 && last.1 < next.1);
            assert!(rt; place == 0 || behind, "entry {place}");
            sum = sum.wrapping_sub(next.0);
            last = next;
        }
        assert!(rt; dues.soonest().is_none());
        assert_eq!(rt; sum, 0);
        Ok(())
    }
}
RT
cd "$work/crates/due_order"
RT_SECONDS=600 rt test
