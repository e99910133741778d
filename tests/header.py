"""include/gateway.h says what the Rattle source and the definitions say: each exported function with its result and its arguments in order, their
names, widths and constness; each struct with its fields in order, their names and widths; and every answer, refusal and kind with its number and its
words. At the end differences are planted, and each must be seen."""
import re
import sys

NUMBERS = {'usize': 'size_t', 'u8': 'uint8_t', 'u16': 'uint16_t', 'u32': 'uint32_t', 'u64': 'uint64_t', 'bool': 'bool'}
FILES = {
    'source': 'crates/interface_c/src/lib.rt',
    'structs': 'crates/interface/src/structs.rt',
    'fields': 'crates/interface/specs/Structs.antt',
    'header': 'include/gateway.h',
    'reasons': 'crates/plan/specs/Refusals.antt',
    'answers': 'crates/answers/specs/Answers.antt',
    'shortest': 'crates/plan/specs/Shortest.antt',
    'layout': 'crates/area/specs/Layout.antt',
    'tick': 'crates/ticking/specs/Tick.antt',
    'ids': 'crates/records/specs/Ids.antt',
    'page': 'docs/REFUSALS.md',
}


def squeezed(text):
    """single spaces, and none at a star or a bracket: one way to write a type"""
    return re.sub(r' ?([*\[\](),]) ?', r'\1', ' '.join(text.split()))


def upper(name):
    return re.sub(r'(?<=.)([A-Z])', r'_\1', name).upper()


def lower(name):
    return upper(name).lower()


def c_type(kind):
    """what a Rattle number or struct is in C"""
    return NUMBERS.get(kind) or f'struct {lower(kind)}'


def c_arguments(argument):
    """what a Rattle argument is in C: a slice is a pointer and a length"""
    name, kind = (part.strip() for part in argument.split(':'))
    slice_of = re.fullmatch(r"&(mut )?\[(\w+)\]", kind)
    if slice_of:
        const = '' if slice_of.group(1) else 'const '
        return [f'{const}{NUMBERS[slice_of.group(2)]}*{name}', f'size_t {name}_length']
    return [f'{c_type(kind)} {name}']


def exported(source):
    source = re.sub(r'//.*', '', source)
    found = {}
    for name, arguments, result in re.findall(r'#\[unsafe\(no_mangle\)\]\s*pub extern "C" fn (\w+)\(([^)]*)\)\s*->\s*(\w+)', source):
        split = [a for a in re.split(r',\s*(?![^\[]*\])', arguments.strip()) if a.strip()]
        found[name] = (c_type(result), [c for a in split for c in c_arguments(a)])
    if len(found) != source.count('#[unsafe(no_mangle)]'):
        sys.exit(f'tests/header.py: {source.count("#[unsafe(no_mangle)]")} functions are exported, and {len(found)} were read')
    return found


def structs_laid_out(source):
    """the structs that are laid out as C does, each with its fields"""
    source = re.sub(r'//.*', '', source)
    found = {}
    for name, fields in re.findall(r'#\[repr\(C\)\]\s*(?:#\[derive\([^)]*\)\]\s*)?pub struct (\w+) \{([^}]*)\}', source):
        found[lower(name)] = [f'{c_type(kind)} {field}' for field, kind in re.findall(r'pub (\w+): (\w+),', fields)]
    return found


def structs_declared(header):
    code = re.sub(r'/\*.*?\*/', '', header, flags=re.S)
    return {name: [squeezed(f) for f in fields.split(';') if f.strip()] for name, fields in re.findall(r'^struct (\w+) \{([^}]*)\};', code, flags=re.M)}


def declared(header):
    code = re.sub(r'/\*.*?\*/', '', header, flags=re.S)
    found = {}
    for result, name, arguments in re.findall(r'^([\w ]+?)\b(\w+)\(([^)]*)\);', code, flags=re.M):
        found[name] = (result.strip(), [squeezed(a) for a in arguments.split(',')])
    return found


def numbers_said(texts):
    """the constants that the definitions ask for"""
    said = {}

    def say(name, number):
        """two calls that have the answer have one number for it"""
        said[name] = int(number) if said.get(name, int(number)) == int(number) else f'{said[name]} and {number}'
    for name, number in re.findall(r'^number_of (\w+) = (\d+)$', texts['reasons'], flags=re.M):
        said['GATEWAY_REFUSED_' + upper(name)] = int(number)
    for name, number in re.findall(r'^refusal_number (\w+) = (\d+)$', texts['answers'], flags=re.M):
        said['GATEWAY_REFUSED_' + upper(name)] = int(number)
    for name, number in re.findall(r'^(?:received|responded)_number \(Ok \(?(?:responded\.)?(\w+)[^=]* = (\d+)$', texts['answers'], flags=re.M):
        say('GATEWAY_' + upper(name), number)
    said['GATEWAY_AREA_SIZE'] = int(re.search(r'^shortest_area = (\d+)$', texts['shortest'], flags=re.M).group(1))
    said['GATEWAY_REPORT_SIZE'] = int(re.search(r'^rx_count a = at_most (\d+) \(low_at a rx_count_bytes\)$', texts['layout'], flags=re.M).group(1))
    said['GATEWAY_EXTENDED'] = int(re.search(r'^format_bit = (\d+)$', texts['ids'], flags=re.M).group(1))
    for name, start in ('NOTHING', 'nothing_taken number'), ('FRAME', r'taken_struct \(Ok \(Some \(taken\.Frame x\)\)\)'), ('REQUEST', r'taken_struct \(Ok \(Some \(taken\.Request x\)\)\)'):
        said['GATEWAY_' + name] = int(re.search(rf'^{start} =\s+record \{{\s+number = \w+;\s+kind = (\d+);', texts['fields'], flags=re.M).group(1))
    timeouts = re.search(r'^expired_report a r = pick \(.*\) (\d) (\d)$', texts['tick'], flags=re.M)
    said['GATEWAY_LONG_TIMEOUT'], said['GATEWAY_SHORT_TIMEOUT'] = int(timeouts.group(1)), int(timeouts.group(2))
    for name, number in re.findall(r'^silence_number \(Ok (\w+)\) = (\d+)$', texts['answers'], flags=re.M):
        say(f'GATEWAY_{upper(name)}_TIMEOUT', number)
    return said


def differences(texts):
    seen = []
    functions = exported(texts['source']), declared(texts['header'])
    structs = structs_laid_out(texts['structs']), structs_declared(texts['header'])
    for ours, theirs in functions, structs:
        for name in sorted(ours.keys() | theirs.keys()):
            if ours.get(name) != theirs.get(name):
                seen.append(f'{name}: the source has {ours.get(name)}, the header {theirs.get(name)}')
    said = numbers_said(texts)
    defined = {n: int(v, 0) for n, v in re.findall(r'^#define (GATEWAY_\w+) (\d+|0x[0-9a-f]+(?=u))u?$', texts['header'], flags=re.M)}
    for name in sorted(said.keys() | defined.keys()):
        if said.get(name) != defined.get(name):
            seen.append(f'{name}: the definitions say {said.get(name)}, the header {defined.get(name)}')
    words = {int(n): w for n, w in re.findall(r'^\| (\d+) \| ([^|]+?) \|', texts['page'], flags=re.M)}
    beside = {int(n): w for w, n in re.findall(r'^/\* (.+) \*/\n#define GATEWAY_REFUSED_\w+ (\d+)$', texts['header'], flags=re.M)}
    for number in range(1, 17):
        if number not in words or words.get(number) != beside.get(number):
            seen.append(f'refusal {number}: docs/REFUSALS.md says "{words.get(number)}", the header "{beside.get(number)}"')
    return seen


PLANTED = [
    ('two arguments exchanged', 'header', 'gateway_receive(uint8_t *area, size_t area_length, size_t node, uint32_t id,',
     'gateway_receive(uint8_t *area, size_t area_length, uint32_t id, size_t node,'),
    ('a checksum before the payload', 'header', 'const uint8_t *payload, size_t payload_length, uint8_t checksum',
     'uint8_t checksum, const uint8_t *payload, size_t payload_length'),
    ('two slices exchanged', 'header', 'uint8_t *area, size_t area_length, uint8_t *report, size_t report_length',
     'uint8_t *report, size_t report_length, uint8_t *area, size_t area_length'),
    ('an argument too few', 'header', 'size_t area_length, size_t node);', 'size_t area_length);'),
    ('a length lost', 'header', 'const uint8_t *payload, size_t payload_length);', 'const uint8_t *payload);'),
    ('another width', 'header', 'size_t node, uint32_t id);', 'size_t node, uint16_t id);'),
    ('another width of a checksum', 'header', 'size_t payload_length, uint8_t checksum', 'size_t payload_length, uint16_t checksum'),
    ('another width of an answer', 'header', 'uint16_t gateway_tick', 'uint32_t gateway_tick'),
    ('another struct answered', 'header', 'struct gateway_taken gateway_take', 'struct gateway_opened gateway_take'),
    ('another struct as an argument', 'header', 'struct gateway_taken taken', 'struct gateway_opened taken'),
    ('a pointer for a struct', 'header', 'struct gateway_taken taken', 'struct gateway_taken *taken'),
    ('two fields exchanged', 'header', '    uint8_t kind;\n    uint8_t size;\n', '    uint8_t size;\n    uint8_t kind;\n'),
    ('another width of a field', 'header', '    uint32_t id;\n', '    uint16_t id;\n'),
    ('a field missing', 'header', '    uint16_t waiting;\n', ''),
    ('a field more', 'header', '    uint16_t waiting;\n', '    uint16_t waiting;\n    uint16_t node;\n'),
    ('another name of a field', 'header', '    uint16_t record;\n', '    uint16_t number;\n'),
    ('a struct not declared', 'header', 'struct gateway_fullness {', 'struct fullness {'),
    ('a slice that may be written', 'header', 'gateway_fullness(const uint8_t *area', 'gateway_fullness(uint8_t *area'),
    ('a function not declared', 'header', 'uint16_t gateway_tick(', 'uint16_t gateway_tock('),
    ('another refusal number', 'header', 'GATEWAY_REFUSED_NO_NODE 12', 'GATEWAY_REFUSED_NO_NODE 15'),
    ('another answer number', 'header', 'GATEWAY_NO_ROW 1', 'GATEWAY_NO_ROW 2'),
    ('another number of a wrong checksum', 'header', 'GATEWAY_WRONG_SUM 3', 'GATEWAY_WRONG_SUM 2'),
    ('another number of a kind', 'header', 'GATEWAY_FRAME 1', 'GATEWAY_FRAME 2'),
    ('another number of a request', 'header', 'GATEWAY_REQUEST 2', 'GATEWAY_REQUEST 3'),
    ('another report byte', 'header', 'GATEWAY_LONG_TIMEOUT 2', 'GATEWAY_LONG_TIMEOUT 3'),
    ('another area size', 'header', 'GATEWAY_AREA_SIZE 32768', 'GATEWAY_AREA_SIZE 32767'),
    ('another bit for the format', 'header', 'GATEWAY_EXTENDED 0x80000000u', 'GATEWAY_EXTENDED 0x40000000u'),
    ('a bit that could be taken for a sign', 'header', 'GATEWAY_EXTENDED 0x80000000u', 'GATEWAY_EXTENDED 0x80000000'),
    ('other words', 'header', '/* no such Tx frame */', '/* no such Rx frame */'),
    ('other words of the last refusal', 'header', '/* a reception on a LIN node; a response', '/* a reception on a LIN node, or a response'),
    ('another width in the source', 'source', 'node: usize, id: u32)', 'node: usize, id: u64)'),
    ('an argument more in the source', 'source', 'tx: usize)', 'tx: usize, rx: usize)'),
    ('a slice that is written in the source', 'source', 'plan: &[u8]', 'plan: &mut [u8]'),
    ('another struct in the source', 'source', 'node: usize) -> GatewayTaken', 'node: usize) -> GatewayOpened'),
    ('two fields exchanged in the source', 'structs', '    pub at: u16,\n    pub size: u16,\n', '    pub size: u16,\n    pub at: u16,\n'),
    ('another width of a field in the source', 'structs', '    pub id: u32,\n', '    pub id: u64,\n'),
    ('a field missing in the source', 'structs', '    pub waiting: u16,\n', ''),
    ('a struct that is not laid out as C does', 'structs', '#[repr(C)]\n#[derive(Clone, Copy, Debug, PartialEq, Eq)]\npub struct GatewayPayload',
     '#[derive(Clone, Copy, Debug, PartialEq, Eq)]\npub struct GatewayPayload'),
    ('another area size in the definitions', 'shortest', 'shortest_area = 32768', 'shortest_area = 32767'),
    ('another bit for the format in the definitions', 'ids', 'format_bit = 2147483648', 'format_bit = 1073741824'),
    ('another number of a kind in the definitions', 'fields', 'kind = 1;', 'kind = 2;'),
    ('another number of a request in the definitions', 'fields', 'kind = 2;', 'kind = 1;'),
    ('an answer of two numbers in the definitions', 'answers', 'responded_number (Ok responded.TooShort) = 2', 'responded_number (Ok responded.TooShort) = 1'),
    ('a timeout of two numbers in the definitions', 'answers', 'silence_number (Ok Long) = 2', 'silence_number (Ok Long) = 1'),
    ('another number in the definitions', 'answers', 'refusal_number NotOpen = 11', 'refusal_number NotOpen = 12'),
]

texts = {what: open(path, encoding='utf-8').read() for what, path in FILES.items()}
found = differences(texts)
if found:
    sys.exit('\n'.join(found))
for what, file, old, new in PLANTED:
    if texts[file].count(old) != 1:
        sys.exit(f'tests/header.py: {what}: `{old}` stands {texts[file].count(old)} times in {FILES[file]}')
    if not differences({**texts, file: texts[file].replace(old, new)}):
        sys.exit(f'tests/header.py: {what}: planted, and not seen')
print(f'header: {len(exported(texts["source"]))} functions, {len(structs_laid_out(texts["structs"]))} structs, {len(numbers_said(texts))} numbers; '
      f'{len(PLANTED)} planted differences seen')
