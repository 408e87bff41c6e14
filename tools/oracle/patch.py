#!/usr/bin/env python3
"""patch.py CLEAN FOLDER: makes the copies tie.rs and rooms.rs of clean.rs in FOLDER.

Every edit names a text that must stand in the file exactly once; otherwise nothing is written and the build fails.
A copy whose text is already right is left alone, so that cargo doesn't build it again.
"""
import pathlib
import sys

# `_find_best_node` gets the compilation's input, for its ranking, and compares as `_restrict` and `_relax` do: by value,
# then by rank, which is the capacity.
TIE = [
    (
        "        self._find_best_node();\n",
        "        self._find_best_node(input);\n",
    ),
    (
        "    fn _find_best_node(&mut self) {\n",
        "    fn _find_best_node(&mut self, input: &CompilationInput<T>) {\n"
        "        let order = |a: &NodeId, b: &NodeId| get!(node a, self).value_top\n"
        "            .cmp(&get!(node b, self).value_top)\n"
        "            .then_with(|| input.ranking.compare(&get!(node a, self).state, &get!(node b, self).state));\n",
    ),
    (
        "            .values()\n"
        "            .copied()\n"
        "            .max_by_key(|id| get!(node id, self).value_top);\n",
        "            .values()\n"
        "            .copied()\n"
        "            .max_by(order);\n",
    ),
    (
        "            .filter(|id| get!(node id, self).flags.is_exact())\n"
        "            .copied()\n"
        "            .max_by_key(|id| get!(node id, self).value_top);\n",
        "            .filter(|id| get!(node id, self).flags.is_exact())\n"
        "            .copied()\n"
        "            .max_by(order);\n",
    ),
]

# One test before each place that writes a row. A layer is stored once it is complete, so the rows after the last stored
# layer are those of the layer that is to get one more.
IN_LAYER = "self.nodes.len() - self.layers[self.layers.len() - 1].to"
ROOMS = [
    # the root
    (
        "        self.nodes.push(root_node);\n",
        "        crate::lent::node_row(self.nodes.len());\n"
        "        self.nodes.push(root_node);\n",
    ),
    # a child with a new state: node and edge, or nothing
    (
        "            Entry::Vacant(e) => {\n",
        "            Entry::Vacant(e) => {\n"
        f"                crate::lent::child({IN_LAYER}, self.nodes.len(), self.edges.len());\n",
    ),
    # the merged row
    (
        "        let merged_id = recycled.unwrap_or_else(|| {\n",
        "        let merged_id = recycled.unwrap_or_else(|| {\n"
        f"            crate::lent::merged_row({IN_LAYER}, self.nodes.len());\n",
    ),
    # every edge: one more to a known state, or a copied one; a new state's has passed the test already
    (
        "        let new_eid = EdgeId($dd.edges.len());\n",
        "        crate::lent::edge_row($dd.edges.len());\n"
        "        let new_eid = EdgeId($dd.edges.len());\n",
    ),
]


def edited(text, edits):
    """The text with every edit made, in order."""
    for old, new in edits:
        found = text.count(old)
        if found != 1:
            sys.exit(f"patch.py: found {found} times instead of once:\n{old}")
        text = text.replace(old, new)
    return text


def put(path, text):
    """Writes the text unless the file holds it already."""
    if not path.exists() or path.read_text(encoding="utf-8") != text:
        path.write_text(text, encoding="utf-8")


def main(clean, folder):
    folder = pathlib.Path(folder)
    tie = edited(pathlib.Path(clean).read_text(encoding="utf-8"), TIE)
    rooms = edited(tie, ROOMS)
    folder.mkdir(parents=True, exist_ok=True)
    put(folder / "tie.rs", tie)
    put(folder / "rooms.rs", rooms)


if __name__ == "__main__":
    main(*sys.argv[1:])
