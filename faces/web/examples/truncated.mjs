// Shows what is left of an ELF file that ends in its last section header: node truncated.mjs FILE
//
// It reads the file, and then only as many bytes of it. One section header of such a file is not inside it, so
// `section_headers` throws. `whole` returns a file with the others.
import { Elf, section_header32, section_header64, sht_to_str } from '../goblin.js';
import { run } from './common.mjs';

function list(elf, bytes) {
    const count = elf.section_headers().length;
    if (count === 0) return console.log('no section headers');
    const size = (elf.is_64() ? section_header64 : section_header32).SIZEOF_SHDR;
    const cut = Elf.parse(bytes.subarray(0, Number(elf.header.e_shoff) + count * size - size / 2));
    try {
        cut.section_headers();
    } catch ({ message }) {
        console.log(`all headers: ${message}`);
    }
    const sections = cut.whole().section_headers();
    console.log(`${sections.length} of ${count} headers are whole`);
    return sections.forEach((section, index) => {
        const left = cut.readable_data(section);
        console.log(`${index} ${sht_to_str(section.sh_type)}: `
            + `${left ? `${left.length} of ${section.sh_size} bytes` : 'no bytes'}`);
    });
}

await run('truncated.mjs FILE', list);
