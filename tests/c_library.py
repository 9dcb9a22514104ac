"""Compares include/rpkirtr.h with the exports of the crate rpkirtr_c: names, types and order of parameters.

c_library.py [ARCHIVE]: with an archive, its symbols too."""
import pathlib
import re
import subprocess
import sys

TOP = pathlib.Path(__file__).resolve().parent.parent
C_TYPES = {
    '&mut RouterHandle': ['rpkirtr_router *'], '&mut IndexHandle': ['rpkirtr_index *'], '&mut RoaHandle': ['rpkirtr_roa *'],
    '&mut ManifestHandle': ['rpkirtr_manifest *'], '&mut CDigest': ['rpkirtr_digest *'],
    '&mut CacheHandle': ['rpkirtr_cache *'], '&mut u8': ['uint8_t *'], 'u16': ['uint16_t'],
    '&[u8]': ['const uint8_t *', 'size_t'], '&mut [u8]': ['uint8_t *', 'size_t'],
    '&[CRecord]': ['const rpkirtr_record *', 'size_t'], '&mut [CRecord]': ['rpkirtr_record *', 'size_t'],
    '&mut CRecord': ['rpkirtr_record *'], '&CRoute': ['const rpkirtr_route *'],
    '&[CList]': ['const rpkirtr_list *', 'size_t'], '&mut CText': ['rpkirtr_text *'],
    '&mut CLink': ['rpkirtr_link *'], '&mut CTraffic': ['rpkirtr_traffic *'],
    '&CConfig': ['const rpkirtr_config *'], '&mut CConfig': ['rpkirtr_config *'], '&mut CCommitted': ['rpkirtr_committed *'],
    '&mut CFault': ['rpkirtr_fault *'], '&mut usize': ['size_t *'], '&mut u32': ['uint32_t *'], '&mut u64': ['uint64_t *'], '&mut i32': ['int32_t *'],
    'u8': ['uint8_t'], 'u32': ['uint32_t'], 'u64': ['uint64_t'], 'usize': ['size_t'], 'i32': ['int32_t'], 'Global': [],
}
ALIASES = {'rpkirtr_status': 'int32_t', 'rpkirtr_state': 'int32_t'}


def is_read(handle, code):
    """Whether an export only looks at a handle: it lends the value, and neither takes it out, assigns the handle, nor hands it on."""
    if f'{handle}.value()' not in code:
        return False
    code = code.partition('\n{\n')[2]
    return not re.search(rf'\b{handle}\.take\(|\*{handle} =|[(,] ?{handle}[,)]', code)


def exports():
    """Each export of the crate: its name, its parameters as pairs of a name and a C type, and its result."""
    found = {}
    for source in sorted((TOP / 'crates/rpkirtr_c/src').glob('*.rt')):
        for name, inside, result, rest in re.findall(r'pub extern "C" fn (\w+)\((.*?)\) -> (\w+)(.*?)\n}\n', source.read_text(), re.S):
            parameters = []
            for part in filter(None, (part.strip() for part in inside.split(','))):
                parameter, kind = part.split(': ', 1)
                names = [parameter, parameter + '_len']
                types = C_TYPES[kind]
                if kind.endswith('Handle') and is_read(parameter, rest):
                    types = ['const ' + types[0]]
                parameters += list(zip(names, types))
            found[name] = (parameters, C_TYPES[result][0])
    return found


def declared():
    """The same of the header."""
    text = re.sub(r'/\*.*?\*/', '', (TOP / 'include/rpkirtr.h').read_text(), flags=re.S)
    found = {}
    for result, name, inside in re.findall(r'^(\w+) (rpkirtr_\w+)\(([^)]*)\);', text, re.M):
        parameters = []
        for part in inside.split(',') if inside != 'void' else []:
            kind, parameter = re.fullmatch(r'\s*(.*?)(\w+)\s*', part, re.S).groups()
            kind = kind.strip()
            for alias, meaning in ALIASES.items():
                kind = re.sub(rf'\b{alias}\b', meaning, kind)
            parameters.append((parameter, kind))
        found[name] = (parameters, ALIASES.get(result, result))
    return found


def main(words):
    code, header, faults = exports(), declared(), []
    for name in sorted(code.keys() | header.keys()):
        if code.get(name) != header.get(name):
            faults.append(f'{name}: the crate has {code.get(name)}, the header {header.get(name)}')
    for archive in words:
        lines = subprocess.run(['nm', '--defined-only', '-g', archive], capture_output=True, text=True, check=True).stdout
        symbols = {line.split()[2] for line in lines.splitlines() if len(line.split()) == 3 and line.split()[2].startswith('rpkirtr_')}
        for name in sorted(symbols ^ header.keys()):
            faults.append(f'{name}: in one of {archive} and the header alone')
    print('\n'.join(faults) or f'{len(header)} functions agree')
    return 1 if faults else 0


if __name__ == '__main__':
    sys.exit(main(sys.argv[1:]))
