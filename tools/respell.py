#!/usr/bin/env python3
"""Brings the repository's own definitions and lemmas to today's spelling: words in snake case.

usage: python3 tools/respell.py [--list] [FOLDER]

A name that is declared in specs/ or proofs/ of a crate, and has a capital after a small first letter or a dash, gets underscores instead, there
and wherever it stands as a whole word: in .antt files, comments too, in .rt files but for lines with a quote, and in claims.txt. Functions of src/,
types, modules, and names that the check makes (loop-.., tie parts) stay. Must-fail edits and documents are not touched. --list prints the names
that fall together, without a change.
"""

import glob
import os
import re
import sys

TOKEN = r"[^\s(){}\[\],.;:«»`\"/|]+"
DECLARES = re.compile(r"^\s*(?:(?:abbrev|unfoldable|pub|ruleset|axiom)\s+)*(" + TOKEN + r")\s*(?::|=)(?=\s|$)")
HEADED = re.compile(r"^\s*(?:(?:abbrev|unfoldable|pub)\s+)*(?:record|data)\s+(" + TOKEN + r")")
SEVERAL = re.compile(r"^\s*(?:pub\s+)?((?:" + TOKEN + r"\s+)+" + TOKEN + r")\s+:\s")
# Names that fall together, or that a field, a variable or the library has: what they get instead. Keys are old names.
OTHERWISE = {
    "arrayLayerCount": "layer_count_of",
    "blockHeight": "block_height_of",
    "blockWidth": "block_width_of",
    "buffer-of": "buffer_of_lem",
    "buffer-to-buffer": "buffer_to_buffer_lem",
    "bytesChecked": "checked_bytes_of",
    "bytesPerRow": "bytes_per_row_of",
    "checks-of": "checks_of_lem",
    "copies-text": "copies_text_lem",
    "dstRange": "dst_range_of",
    "image-bytes": "image_bytes_of_lem",
    "imageBytes": "image_bytes_of",
    "imageRows": "image_rows_of",
    "imageStride": "image_stride_of",
    "in-range": "in_range_lem",
    "is2D": "is_2d",
    "is3D": "is_3d",
    "isContiguous": "is_contiguous_copy",
    "layer-of": "layer_of_lem",
    "layer-on": "layer_on_lem",
    "left-of": "left_of_lem",
    "mip-side": "mip_side_lem",
    "named-buffers": "named_buffers_lem",
    "named-memory": "named_memory_lem",
    "named-textures": "named_textures_lem",
    "next-layer": "next_layer_lem",
    "no-layer": "no_layer_lem",
    "no-plan": "no_plan_lem",
    "not-below": "not_below_lem",
    "of-buffers": "of_buffers_lem",
    "of-memory": "of_memory_lem",
    "of-textures": "of_textures_lem",
    "on-layer": "on_layer_lem",
    "or-else": "or_else_lem",
    "or-zero": "or_zero_lem",
    "other-layer": "other_layer_lem",
    "other-part": "other_part_lem",
    "part-count": "part_count_lem",
    "plain-side": "plain_side_lem",
    "plane-0": "plane_0_lem",
    "plane-1": "plane_1_lem",
    "planned-by": "planned_by_lem",
    "range-line": "range_line_lem",
    "range-lines": "range_lines_lem",
    "ranges-by": "ranges_by_lem",
    "region-as": "region_as_lem",
    "region-at": "region_at_lem",
    "region-lines": "region_lines_lem",
    "region-of": "region_of_lem",
    "requiresExactSize": "requires_exact",
    "rowStride": "row_stride_of",
    "rowsPerImage": "rows_per_image_of",
    "several-images": "several_images_lem",
    "several-rows": "several_rows_lem",
    "sheet-from": "sheet_from_lem",
    "side-of": "side_of_lem",
    "size-by": "size_by_lem",
    "srcRange": "src_range_of",
    "texture-of": "texture_of_lem",
    "textureSide": "texture_side_of",
}
# Names that had today's spelling already and fall together with one that gets it, by the folder in which they stand.
HERE = {
    "claim_webgpu_effects/proofs/": {"in_blocks": "in_blocks_lem"},
    "claim_region_output/proofs/": {"left_in": "left_in_lem", "none_left": "none_left_lem"},
    "rule_copy_range/proofs/Inside.antt": {"run_fits": "run_fits_lem"},
    "claim_texture_regions/proofs/Same.antt": {"same_bits": "same_bits_lem"},
    "claim_webgpu_copies/proofs/Parting.antt": {"too_large": "too_large_lem", "too_wide": "too_wide_lem"},
}
# What the check names.
MADE = re.compile(r"^(loop|decreases|invariant|overflow|bounds|returns|slice|offset|nonzero|type_inv|fit-item-requires)(-|$)")


def snake(name):
    if re.match(r"^[A-Z][A-Z0-9]*(-[A-Z0-9]+)+$", name):
        return name.replace("-", "_")
    name = re.sub(r"(?<=[a-z0-9])([A-Z])", lambda m: "_" + m.group(1).lower(), name) if name[:1].islower() else name
    if name[:1].isupper():
        return re.sub(r"-([a-z])", lambda m: m.group(1).upper(), name)
    return name.replace("-", "_")


def antt_files(top):
    return sorted(glob.glob(top + "/crates/*/specs/**/*.antt", recursive=True) + glob.glob(top + "/crates/*/proofs/**/*.antt", recursive=True))


def declared(top):
    found = {}
    for path in antt_files(top):
        with open(path, encoding="utf-8") as f:
            for line in f:
                if line.lstrip().startswith("--"):
                    continue
                m = HEADED.match(line) or DECLARES.match(line)
                names = [m.group(1)] if m else []
                for n in names:
                    found.setdefault(n, set()).add(path)
    return found


def wanted(name):
    if MADE.match(name) or name.startswith("+") or "◌" in name:
        return False
    return bool(re.match(r"^[a-z][A-Za-z0-9_'₀-₉^-]*$", name) and re.search(r"[A-Z]|-", name)) or bool(re.match(r"^[A-Z].*-", name))


def respell(text, names, ghost_only):
    def one(m):
        return names.get(m.group(0), m.group(0))

    if not ghost_only:
        return re.sub(TOKEN, one, text)
    out = []
    for line in text.split("\n"):
        out.append(re.sub(TOKEN, one, line) if not re.search(r'"', line) else line)
    return "\n".join(out)


def main(argv):
    only_list = "--list" in argv
    top = ([a for a in argv if not a.startswith("--")] or ["."])[0]
    found = declared(top)
    names = {n: OTHERWISE.get(n, snake(n)) for n in found if wanted(n) or n in OTHERWISE}
    into = {}
    for n, m in names.items():
        into.setdefault(m, set()).add(n)
    for m in into:
        if m in found:
            into[m].add(m)
    for m, olds in sorted(into.items()):
        if len(olds) > 1:
            print("fall together:", m, "<-", ", ".join(f"{o} ({' '.join(sorted(p.split('crates/')[1] for p in found[o]))})" for o in sorted(olds)))
    if only_list:
        return 0
    files = antt_files(top) + sorted(glob.glob(top + "/crates/*/src/**/*.rt", recursive=True)) + [p for p in [top + "/claims.txt"] if os.path.exists(p)]
    for path in files:
        with open(path, encoding="utf-8") as f:
            text = f.read()
        own = {}
        for part, renamed in HERE.items():
            own.update(renamed if "/crates/" + part in path.replace(top, "", 1) else {})
        new = respell(text, names | own, path.endswith(".rt"))
        if new != text:
            with open(path, "w", encoding="utf-8") as f:
                f.write(new)
    print(len(names), "names")
    return 0


if __name__ == "__main__":
    raise SystemExit(main(sys.argv[1:]))
