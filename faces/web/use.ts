// A program in TypeScript over goblin.d.ts. checks/faces/webassembly.sh compiles it if there is tsc, and does not run
// it. A line that must be an error has a comment before it, at which the compiler fails if there is none.
import init, { AddressMap, DT_NEEDED, DT_SONAME, Dyn, Elf, GoblinError, Kind, List, Range, SectionHeader, SHF_ALLOC,
    SHT_SYMTAB, Symtab, Writer, json, machine_to_str } from 'goblin_c';

export async function main(bytes: ArrayBuffer, view: Uint16Array): Promise<string[]> {
    await init();
    const elf: Elf = Elf.parse(bytes), lines: string[] = [Elf.parse(view).is_64() ? '64' : '32'];
    lines.push(elf.is_lib() ? 'a library' : `from ${elf.entry() + 0n} on`);
    const sections: List<SectionHeader> = elf.section_headers();
    const names: (string | undefined)[] = sections.map((section) => elf.section_name(section));
    const loaded: SectionHeader[] = sections.filter(({ sh_flags }) => (sh_flags & SHF_ALLOC) !== 0n);
    const total: bigint = sections.reduce((sum: bigint, { sh_size }) => sum + sh_size, 0n),
        second: SectionHeader | undefined = sections[1],
        largest = sections.reduce((most, item) => (item.sh_size > most.sh_size ? item : most));
    lines.push(`${largest.sh_size}`,
        `${total} ${second?.sh_size} ${sections.slice(1).length} ${sections.some(({ sh_size }) => sh_size === 0n)}`);
    for (const [index, { sh_size }] of sections.entries()) lines.push(`${names[index]} ${sh_size + 1n}`);
    const found = elf.section_by_type(SHT_SYMTAB), index: number | undefined = found?.index,
        range: Range | undefined = elf.range(loaded[0]);
    lines.push(`${index} ${found?.section.sh_size} ${range?.offset} ${machine_to_str(elf.header.e_machine)}`,
        JSON.stringify({ ...loaded[0] }, json));
    const whole: Elf = elf.whole(), writer: Writer = whole.writer(new Uint8Array(bytes)),
        first: bigint = elf.number_in(loaded[0], 0, 4);
    writer.put_section_header(1, { ...loaded[0], sh_flags: loaded[0].sh_flags | SHF_ALLOC });
    lines.push(`${first} ${elf.address_to_offset(elf.header.e_entry)} `
        + `${elf.section_by_name('.text', 1)?.index}`);
    const symbols: Symtab | undefined = elf.syms(), addresses: AddressMap | undefined = symbols?.address_map();
    lines.push(`${addresses?.symbol_by_address(elf.header.e_entry)?.index}`,
        `${symbols?.symbol_by_address(0)?.symbol.st_value}`);
    for (const symbol of symbols ?? []) lines.push(`${symbols?.name(symbol)} ${symbol.st_value}`);
    for (const [section, relocs] of elf.shdr_relocs())
        lines.push(`${section + 1} ${relocs.at(-1)?.r_addend ?? 0n}`);
    const id: Uint8Array | undefined = elf.build_id();
    for (const { name, name_bytes, desc } of elf.iter_note_headers())
        lines.push(`${name ?? name_bytes} ${desc.length} ${id?.length}`);
    for (const section of sections) lines.push(`${elf.strtab(elf.linked_section(section)).get(1)}`);
    const needed: Dyn[] = elf.dynamic_section().filter(({ d_tag }) => d_tag === DT_NEEDED),
        soname: bigint | undefined = elf.dynamic_value(DT_SONAME),
        libraries: string[] = [...elf.libraries(), ...elf.rpaths(), elf.soname() ?? elf.interpreter() ?? ''];
    lines.push(`${elf.dynamic_strings().get(soname ?? 0n)} ${needed[0]?.d_val ?? 0n}`, ...libraries);
    const strtab = elf.shdr_strtab(), texts: (Uint8Array | undefined)[] = strtab.get_all_bytes([0, 1n]),
        is_same: boolean = strtab.is_at(1, '.text') || strtab.starts_at(1, new Uint8Array(bytes));
    lines.push(`${is_same} ${strtab.get_closed_bytes(1) ?? texts[0]}`);
    try {
        elf.number(0n, 4);
    } catch (error) {
        if (error instanceof GoblinError && error.kind === Kind.TOO_BIG) lines.push(`${error.numbers[0]}`);
    }
    // @ts-expect-error
    elf.number(0n, 3);
    // @ts-expect-error
    sections.reduce((sum: bigint, { sh_size }) => sum + sh_size);
    // @ts-expect-error
    Elf.parse('ELF');
    // @ts-expect-error
    new Elf(bytes);
    // @ts-expect-error
    loaded[0].sh_size + 1;
    return lines;
}
