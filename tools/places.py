#!/usr/bin/env python3
"""Counts the places that docs/DESIGN-PASS.md speaks of, in crates/*/src, by patterns; `places.py -v KEY` lists the places of one."""
import glob, re, sys

FN = re.compile(r'^(?:    )?(?:pub )?fn (\w+)', re.M)
PATTERNS = {
    # 1: what `?`, Option, Result and enums say
    '1a else-return-none': r'else \{\s*return None;\s*\}',
    '1b arm-none-or-err-again': r'(?:Err\(_\)|None) => (?:return )?None\b|Some\((?:_|\w+)\) => (?:Some\(\w+(?:\.\w+)?\)|true)|Err\((\w+)\) => (?:return )?Err\(',
    '1c own-option-or-result': r'enum (?:Outcome|Flattened|Part|Order|Way)\b',
    '1d number-for-kind-or-refusal': r'fn (?:node_kind|type_kind|kind)\b|Refused\(u8|number: u8',
    '1e done-or-not': r'fn \w+\([^)]*&mut [^)]*\)\s*-> bool',
    # 2: twins, by the words that they share
    '2a count-then-many': r'let one = \w+\(&bytes\[end\.\.\]',
    '2b pending': r'pending > 0',
    '2c place-and-count': r'struct (?:Place|Run|Counted|Span|Two|Filled|Names|Literals|Ends|Header)\b',
    '2d tags': r'fn (?:operator_node|operator|plain_node|plain|two_names)\b',
    '2e left-and-right': r'fn \w*(?:left|right)\w*\b',
    '2f slot-and-field': r'fn (?:slot|field|load|load_field|store|store_field|slots_lie|fields_lie|push|keep|boxed|bags_begun|records_begun|slots_begun)\b',
    '2g made-or-no-room': r'Some\(made\) => Ok\(Came',
    '2h shapes': r'enum (?:Leaf|Single|Joint|Over|Shape)\b|fn shape_of\b',
    '2i kinds-of-value': r'fn (?:number|truth|bag|record|fields_of|things_of|place_of|bag_part|run_part|sides_part|truth_part|num_part|is_truth|is_num)\b',
    '2j desks': r'fn (?:run|serve|answer_all|main|answer_one|place)\b',
    '2k widths': r'fn (?:read_u32|read_u64|four|eight)\b',
    '2l bytes-in-order': r'fn (?:name_before|runs|compare|by_length)\b',
    # 3: loops
    '3a counted-by-hand': r'for _?[a-z] in \w+\.\.|for _ in 0\.\.count|while \w+ (?:>|<) ',
    # 4: by hand
    '4a sameness-and-order': r'fn (?:alike|numbers|truths|runs|one_place|same_field|same_run|same_entry|same|compare|by_length|shorter|name_before|rises|is_in|are_bytes)\b',
    '4b conversion': r'fn (?:words|truth_tag|kind_of|read_header|four|eight|what_is_wrong|number|truth|bag|record)\b|impl(?:<[^>]*>)? From<',
    '4c printing': r'fn (?:show_number|hexadecimal|digit|tell|put_number)\b',
    # 5: facts and parameters that travel
    '5a base-and-mem': r'base: &(?:\'\w+ )?\[u64\],\s*mem: &',
    '5b space': r'requires space \{',
    '5c listed': r'requires (?:listed )?\{ Listed',
    '5d tidy': r'requires (?:tidy )?\{ Tidy|requires sound \{ Sound',
    '5e within-top': r'requires (?:within|room) \{ top ≤ length',
    '5f query-guide-at': r'query: &\[u8\],\s*guide: &',
    '5g scene-and-lent': r'scene: Scene,\s*lent: Lent',
    # 6: buffers with a length beside, searches by hand
    '6a top-beside': r'(?:stack: &(?:mut )?(?:\[u32\]|Vec<u32>)),\s*(?:ranks: &mut Vec<u32>,\s*)?top: usize|let mut top: usize = 8200',
    '6b searched-by-hand': r'fn (?:look_up|middle|find|get)\b',
    '6c parallel': r'ranks: &\[u32\], of: &\[u32\]',
    # 7: switches on a step
    '7a step-switch': r'match (?:shape_of\(|step\.shape|next_step\(|over \{|op \{|by \{)',
}

def count(verbose=None):
    for key, pattern in PATTERNS.items():
        rx, n = re.compile(pattern), 0
        for path in sorted(glob.glob('crates/*/src/**/*.rt', recursive=True)):
            text = open(path, encoding='utf-8').read()
            for m in rx.finditer(text):
                n += 1
                if verbose and key.startswith(verbose):
                    names = [f for f in FN.finditer(text) if f.start() <= m.start()]
                    print(f'{path}:{text.count(chr(10), 0, m.start()) + 1}: {names[-1].group(1) if names else ""}')
        print(f'{n:4} {key}')

count(sys.argv[2] if len(sys.argv) > 2 and sys.argv[1] == '-v' else None)
