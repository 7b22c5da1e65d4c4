"""How the module of a program is cut into parts, and these compiled."""
import parts
from support.planted import catches
from support.running import write_below

# in the place of clang: a module is its own text, and the object of a part says how many parts were compiled before
CLANG = """#!/bin/sh
for word; do last="$word"; case "$word" in *.bc) from="$word";; esac; done
case "$*" in *-emit-llvm*) cp "$from" "$last";; *) echo >> "$0.count"; wc -l < "$0.count" > "$last";; esac
"""
MODULE = "".join(f"define void @a{number}() {{\n  ret void\n}}\n" for number in range(200))


@catches("tools/lib/parts.py", "[made[it].result() for it in texts]", "[made[it].result() for it in made]")
@catches("tools/lib/parts.py", "random.sample(texts, len(texts))", "texts")
def test_parts_are_compiled_in_any_order_and_linked_in_one(tmp_path):
    """Builds side by side, which begin together, compile few of them twice."""
    write_below(tmp_path, "clang", CLANG)
    write_below(tmp_path, "module.bc", MODULE)
    (tmp_path / "clang").chmod(0o755)

    def orders():
        made = parts.objects(f"{tmp_path}/clang", f"{tmp_path}/module.bc", f"{tmp_path}/kept")
        compiled = []
        for path in made:
            with open(path) as kept:
                compiled.append(int(kept.read()))
        return made, compiled

    first, compiled = orders()
    assert len({*first}) == len(first) == parts.PARTS and compiled != sorted(compiled)
    assert orders() == (first, compiled)
    for path in (tmp_path / "kept").iterdir():
        path.unlink()
    assert orders()[0] == first
