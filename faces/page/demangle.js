// Reads mangled names of C++ in Itanium's form: names, templates, functions and most types. A name is left alone if it
// holds anything else: an expression, a lambda, a conversion, an array, a pointer to a member, a name inside of a
// function, or a pack of parameters. And so is one that stands for a very long text.

// Returns a table from a text: each item is a code, and what it stands for.
const table = (text) =>
    new Map(text.split(', ').map((item) => [item.split(' ')[0], item.slice(item.indexOf(' ') + 1)]));
const BUILTINS = table('a signed char, b bool, c char, d double, e long double, f float, g __float128, h unsigned char,'
    + ' i int, j unsigned int, l long, m unsigned long, n __int128, o unsigned __int128, s short, t unsigned short, v'
    + ' void, w wchar_t, x long long, y unsigned long long, z ..., Di char32_t, Ds char16_t, Du char8_t, Dn'
    + ' decltype(nullptr)');
const OPERATORS = table('nw  new, na  new[], dl  delete, da  delete[], ps +, ng -, ad &, de *, co ~, pl +, mi -, ml *,'
    + ' dv /, rm %, an &, or |, eo ^, aS =, pL +=, mI -=, mL *=, dV /=, rM %=, aN &=, oR |=, eO ^=, ls <<, rs >>, lS'
    + ' <<=, rS >>=, eq ==, ne !=, lt <, gt >, le <=, ge >=, ss <=>, nt !, aa &&, oo ||, pp ++, mm --, cm ,, pm ->*, pt'
    + ' ->, cl (), ix []');
const SPECIAL = table('TV vtable for, TT VTT for, TI typeinfo for, TS typeinfo name for, GV guard variable for');
const TRAITS = 'std::char_traits<char>', stream = (kind) => `std::basic_${kind}<char, ${TRAITS} >`;
const STANDARD = { St: 'std', Sa: 'std::allocator', Sb: 'std::basic_string',
    Ss: `std::basic_string<char, ${TRAITS}, std::allocator<char> >`, Si: stream('istream'), So: stream('ostream'),
    Sd: stream('iostream') };
const SUFFIXES = { i: '', j: 'u', l: 'l', m: 'ul', x: 'll', y: 'ull' }, MARKS = { P: '*', R: '&', O: '&&' };
// All words of results that are not in mangled names.
const OWN_WORDS = [...BUILTINS.values(), ...OPERATORS.values(), ...SPECIAL.values(), ...Object.values(STANDARD),
    'non-virtual thunk to anonymous namespace operator restrict volatile const abi clone true false ull'].join(' ');
const WORDS = { r: ' restrict', V: ' volatile', K: ' const', R: ' &', O: ' &&' }, MOST_SIGNS = 8192,
    MOST_OF_ALL = 1 << 16;

const words = (signs) => (signs ? signs.split('').map((sign) => WORDS[sign]).join('') : '');
// (a comma comes before what has a text, as in c++filt)
const listed = (items) => items.reduceRight((rest, { left, right, pack }) =>
    (pack ? listed(pack) : left + right) + (rest && `, ${rest}`), '');

const length_of = ({ left, right, pack }) =>
    (pack ? pack.reduce((all, item) => all + length_of(item) + 2, 0) : left.length + right.length);

// A reader of one name. What it reads is { left, right }, between which a name of that type would be. Of a name it is
// also the last part (which is empty if no constructor has it), a template's arguments, and the words after the
// parameters. It is read again from `known`.
class Reader {
    at = 0; known = []; signs = 0;
    constructor(text) { this.text = text; }
    fail() { throw new SyntaxError(this.text); }
    need(found) { return found ?? this.fail(); }
    get next() { return this.text[this.at]; }
    // Takes a sign if it is here, and reports whether it was.
    takes(sign) {
        const is_here = this.next === sign;
        if (is_here) this.at++;
        return is_here;
    }
    // Reports whether a sticky pattern matches here.
    is(pattern) {
        pattern.lastIndex = this.at;
        return pattern.test(this.text);
    }
    // Takes the text here that a sticky pattern matches, if it does.
    match(pattern) { return this.is(pattern) ? this.text.slice(this.at, this.at = pattern.lastIndex) : undefined; }
    note(item) { return length_of(item) > MOST_SIGNS ? this.fail() : this.known[this.known.push(item) - 1]; }
    // Reads a number that ends with an underscore: without digits it is 0, and others count from 1 on.
    number(base) {
        const digits = this.need(this.match(base === 10 ? /\d*_/y : /[\dA-Z]*_/y)).slice(0, -1);
        return digits ? parseInt(digits, base) + 1 : 0;
    }
    encoding() {
        const special = this.match(/T[VTIS]|GV/y);
        if (special) {
            const { left, right, after = '' } = special === 'GV' ? this.name() : this.type();
            return `${SPECIAL.get(special)} ${left}${right}${after}`;
        }
        const thunk = this.match(/Thn?\d+_|Tvn?\d+_n?\d+_/y);
        if (thunk) return `${thunk[1] === 'h' ? 'non-' : ''}virtual thunk to ${this.encoding()}`;
        const { left: name, after = '', args, is_bare } = this.name();
        if (this.at === this.text.length) return name + after;
        this.args = args;
        const { left, right } = args && !is_bare ? this.type() : { left: '' }, list = this.parameters();
        return !left ? `${name}(${list})${after}` : `${left}${right ? '' : ' '}${name}(${list})${after}${right}`;
    }
    parameters() {
        if (this.match(/v(?=[E.RO]|$)/y)) return '';
        const items = [this.type()];
        while (!this.is(/[E.]|[RO]E|$/y)) items.push(this.type());
        return listed(items);
    }
    name() {
        if (this.takes('N')) return this.nested();
        const is_known = this.is(/S[^t]/y);
        const name = is_known ? this.known_one()
            : this.match(/St/y) ? this.joined({ left: 'std' }, this.part()) : this.part();
        return this.next === 'I' ? this.templated(is_known ? name : this.note(name)) : name;
    }
    nested() {
        const qualifiers = this.match(/r?V?K?/y).split('').reverse().join(''),
            after = words(qualifiers + this.match(/[RO]?/y));
        let name = this.next === 'S' ? this.known_one() : this.next === 'T' ? this.type() : undefined;
        if (name ? this.next === 'E' || name.last === undefined : this.is(/[rVK]/y)) this.fail();
        // (a constructor there has the last name that was read)
        if (this.text[this.at - 1] === '_') name = { ...name, last: '' };
        while (!this.takes('E')) {
            name = this.next === 'I' ? this.templated(this.need(name)) : this.joined(name, this.part(name?.last));
            if (this.next !== 'E') this.note(name);
        }
        return { ...this.need(name), after };
    }
    joined(before, name) { return before ? { ...name, left: `${before.left}::${name.left}` } : name; }
    part(last) {
        this.match(/L(?=\d)/y);
        const [kind] = this.match(/C[1-5]|D[0-25]/y) ?? '';
        const name = kind ? { left: `${kind === 'D' ? '~' : ''}${this.need(last || undefined)}`, last, is_bare: true }
            : this.is(/\d/y) ? this.source()
            : { left: `operator${this.need(OPERATORS.get(this.match(/[a-z][a-zA-Z]/y)))}`, last: '' };
        while (this.takes('B')) name.left += `[abi:${this.source().left}]`;
        return { right: '', ...name };
    }
    source() {
        const size = Number(this.match(/[1-9]\d*/y)), text = this.text.slice(this.at, this.at += size);
        const left = text.length !== size ? this.fail() : /^_GLOBAL_[._$]N/.test(text) ? '(anonymous namespace)' : text;
        return { left, last: left };
    }
    known_one() {
        const left = STANDARD[this.match(/S[tabsiod]/y)];
        if (left) return { left, right: '', last: /\w*/.exec(left.slice(5))[0] };
        return this.need(this.known[this.takes('S') && this.number(36)]);
    }
    templated({ left, last, is_bare, args: before }) {
        if (last === undefined || before) this.fail();
        const args = this.takes('I') && this.arguments(), list = listed(args),
            is_empty = listed(args.slice(-1)) === '';
        const [start, end] = [left.endsWith('<') ? ' ' : '', list.endsWith('>') && !is_empty ? ' ' : ''];
        return { left: `${left}${start}<${list}${end}>`, right: '', last, is_bare, args };
    }
    arguments() {
        const items = [];
        while (!this.takes('E')) {
            items.push(this.takes('J') ? { pack: this.arguments() }
                : this.match(/L(?=[a-zNS\d])/y) ? this.literal() : this.type());
        }
        return items;
    }
    literal() {
        const sign = this.text[this.at], type = listed([this.type()]),
            digits = this.need(this.match(/n?\d+(?=E)/y)).replace('n', '-');
        const left = sign === 'b' ? ['false', 'true'][digits] : sign in SUFFIXES ? digits + SUFFIXES[sign]
            : `(${type})${digits}`;
        return { left: this.takes('E') && this.need(left), right: '' };
    }
    // Reads a type. All types of a name have at most a number of signs: each can stand in it many times.
    type() {
        const item = this.any_type();
        this.signs += length_of(item);
        return this.signs > MOST_OF_ALL ? this.fail() : item;
    }
    any_type() {
        const builtin = BUILTINS.get(this.match(/[a-jl-ostv-z]|D[isun]/y));
        if (builtin) return { left: builtin, right: '' };
        if (!this.is(/S[^t]/y)) return this.note(this.new_type());
        const item = this.known_one();
        return this.next === 'I' ? this.note(this.templated(item)) : item;
    }
    new_type() {
        const is_volatile = this.takes('V'), is_const = this.takes('K'),
            qualifiers = words((is_const ? 'K' : '') + (is_volatile ? 'V' : '')), mark = qualifiers || MARKS[this.next];
        if (mark && !qualifiers) this.at++;
        if (mark && this.is(qualifiers ? /[rVK]/y : /[RO]/y)) this.fail();
        if (mark) return this.marked(mark, this.type());
        if (this.next === 'F' && this.match(/FY?/y)) return this.function();
        const given = this.takes('T') ? this.need(this.args?.[this.number(10)])
            : this.is(/[NS\d]/y) ? this.name() : this.fail();
        return given.pack || given.after ? this.fail() : given;
    }
    // Returns a type with words or a mark: `*`, `&` or `&&`. A reference to a reference is `&&` only if both are.
    marked(mark, { left, right, form = '' }) {
        const is_word = mark[0] === ' ', is_reference = form[0] === '&';
        if (is_reference ? mark[0] !== '&' : is_word && form === 'function') this.fail();
        if (form === 'function') return { left: `${left}(${mark}`, right: `)${right}`, form: mark };
        if (is_reference) return { left: left.slice(0, -form.length) + (form === '&' ? form : mark), right,
            form: form === '&' ? form : mark };
        // (a word that is there already, by what a template's argument stands for, is written once)
        const rest = !is_word ? left : left.replace(/(?: const| volatile)+$/, (all) =>
            all.split(/(?= )/).filter((word) => !mark.includes(word)).join(''));
        return { left: rest + mark, right, form: is_word ? form : mark };
    }
    function() {
        const { left, right, form } = this.type(), list = this.parameters(),
            on = words(this.need(form === 'function' ? undefined : this.match(/[RO]?(?=E)/y)));
        return { left: right ? left : `${left} `,
            right: this.takes('E') && `(${list})${on}${right}`, form: 'function' };
    }
}

/** Returns a function that reports, without reading a mangled name, whether it may stand for one with a text. */
export function may_hold(text) {
    const needed = (text.match(/[a-z_]\w*|\d+/g) ?? []).filter((word) => !OWN_WORDS.toLowerCase().includes(word));
    return (name) => needed.every((word) => name.includes(word));
}

/** Returns a mangled name as it is written in C++, or nothing if it isn't one, or one that isn't read. */
export function demangled(name) {
    if (!name.startsWith('_Z') || /17h[\da-f]{16}E/.test(name))
        return undefined; // (names of Rust's old form look like ones of C++)
    const reader = new Reader(name.slice(2));
    try {
        const text = reader.encoding(), rest = reader.match(/(?:\.[a-z\d_]+(?:\.\d+)*)*/y);
        return reader.at < reader.text.length ? undefined
            : text + rest.replace(/\.[a-z\d_]+(?:\.\d+)*/g, ' [clone $&]');
    } catch (error) {
        // (one that is nested too deep for the stack is left alone, too)
        if (!(error instanceof SyntaxError || error instanceof RangeError)) throw error;
        return undefined;
    }
}
