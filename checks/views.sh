#!/bin/sh
# The check `clones_the_view`: the counted views can't be copied, since bytes of a copy could be read without a count, and no contract would
# notice. Callers call `clone` and `len` on each view, and a function beside the walk makes a second view of a view's bytes. The compiler must
# refuse each `clone`, because the view isn't `Clone`, the second view, because its field is private, and nothing else. Nothing is proved. Nor
# have the views' files a call or field that others see and that isn't listed here, or an impl of another trait, or a module, and `Debug` shows no
# more than length and count. Each form of such a call is planted, too, and must be seen. Run from the repository's root.
. checks/faces/shared.sh
sh commands/has.sh 'compiling callers of views' rt
views='entries::Looked entries::Entries entries::Probes counted_bytes::CountedBytes'
public='Looked new len at marks text entries count Entries len is_empty text Probes of len at count CountedBytes new len at get bytes count '
# What the code of some files may let others see: what stands after each `pub` in whatever form, and each module, impl of a trait, derive and
# field shown, but those that are harmless.
seen() {
    sed 's|//.*||' "$@" | tr -s ' \n' ' ' |
        grep -oE '\bpub\b ?(\([^)]*\))? ?((fn|struct) )?\w*|\bmod \w+|\bimpl\b[^{;]* for [^{]*|derive\([^)]*\)|\.field\([^)]*\)*|/\*' |
        grep -vE '^impl(<[^>]*>)? (Model|fmt::Debug) for |^derive\(Drop\)$|self\.(len|count)\(\)\)$' |
        sed -E 's/^pub\b ?(\([^)]*\))? ?((fn|struct) )?(\w*)$/\4/' | tr '\n' ' '
}
entries=crates/goblin_base/src/entries.rt counted=crates/goblin_base/src/counted_bytes.rt
found=$(seen "$entries" "$counted")
[ "$found" = "$public" ] || wrong="; only what this script lists may be public, and this is: $found"
while read -r door; do
    printf '%s\n' "$door" > "$folder/door"
    [ "$(seen "$entries" "$counted" "$folder/door")" != "$public" ] || wrong="${wrong:-}; this isn't seen: $door"
done << 'doors'
impl Probes<'_> { pub fn place(&self, i: usize) -> usize { self.entries.places[i] } }
impl Probes<'_> { #[inline] pub(crate) fn place(&self, i: usize) -> usize { self.entries.places[i] } }
impl Probes<'_> { pub(in crate) fn place(&self, i: usize) -> usize { self.entries.places[i] } }
impl Probes<'_> { pub (in crate) const fn place(&self, i: usize) -> usize { self.entries.places[i] } }
impl Probes<'_> { pub(super) fn place(&self, i: usize) -> usize { self.entries.places[i] } }
fn outer() { impl crate::find::Door for Probes<'_> { fn place(&self, i: usize) -> usize { self.entries.places[i] } } }
pub(self) mod inner { impl super::Probes<'_> { pub(in super::super) fn place(&self, i: usize) -> usize { self.entries.places[i] } } }
mod inner;
#[derive(Debug, Drop)] struct Shown<'a>(Looked<'a>);
impl fmt::Debug for Shown<'_> { fn fmt<W: fmt::Write>(&self, f: &mut fmt::Formatter<W>) -> fmt::Result { f.field("bytes", &self.bytes) } }
doors
code=$folder/main walk=crates/goblin_base/src/walk.rt
printf '#![tactic(auto)]\nfn main(_rt: HostRuntime) {}\n' > "$code"
for view in $views; do
    printf "fn %s_${view##*::}(view: &goblin_base::$view<'_>) { let _value = view.%s(); }\n" len len clone clone >> "$code"
done
python3 checks/crates.py --program 'views: goblin_base' "$code" "$folder"
echo "fn again<'a>(view: &Looked<'a>) -> Looked<'a> { Looked::new(view.bytes) }" >> "$folder/$walk"
(cd "$folder/crates/views" && rt try) > "$folder/said" 2>&1 || true
for view in $views; do
    line=$(grep -n "clone.*$view" "$code" | cut -d : -f 1)
    grep -q "^src/main.rt:$line:[0-9]*: error.*\`${view##*::}\` is not \`Clone\`" "$folder/said" || wrong="${wrong:-} $view"
done
grep -q "/$walk:$(wc -l < "$folder/$walk"):[0-9]*: error.* \`bytes\` of struct \`Looked\` is private" "$folder/said" || wrong="${wrong:-} $walk"
if [ "${wrong:-}" ] || [ "$(grep -c ': error' "$folder/said")" -ne $(($(echo "$views" | wc -w) + 1)) ]; then
    cat "$folder/said"
    fail "clones_the_view: the compiler must refuse to copy each of $views, and a second view of the bytes, and nothing else${wrong:-}"
fi
echo "clones_the_view: the compiler refuses to copy each of $views, and a second view of the bytes"
