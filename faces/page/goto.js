// The field for an offset, an address or a name. The results are below it, the best first.
import { after_typing, fill, focus_chosen, get, make, put_text, say } from './dom.js';
import { ask } from './reader.js';
import { go } from './route.js';
import { link_to } from './side.js';

let found = [], active = 0, asked = '', shown;

function show(places) {
    found = places;
    get('found').hidden = places.length === 0;
    get('goto').setAttribute('aria-expanded', places.length > 0);
    fill(get('found'), ...places.map((place, i) => make('li', {
        role: 'option', id: `found-${i}`, onmousedown: (event) => event.preventDefault(), onclick: () => take(place),
    }, put_text(make('b'), place.title),
        put_text(make('span'), place.read ? `${place.read}: ${place.detail}` : place.detail))));
    mark(0);
}

function mark(at) {
    active = at;
    [...get('found').children].forEach((item, i) => item.setAttribute('aria-selected', i === active));
    get('found').children[active]?.scrollIntoView({ block: 'nearest' });
    get('goto').setAttribute('aria-activedescendant', found.length ? `found-${active}` : '');
}

// Goes to a result. If its digits can be read in two ways, says which one is taken, with a link to the other.
async function take({ title, to, read }) {
    const other = read && found.find((place) => place.read && place.read !== read);
    close_found();
    await go(to);
    focus_chosen();
    if (read) say(`${title}, ${read}`, other && ', or ',
        other && link_to({ text: `${other.title}, ${other.read}`, to: other.to }));
}

// Says what there is in place of results.
const NONE = 'The file has nothing at that offset or address, and no such name as it is in the file.', SOON = 100;
const report = (text) => Object.assign(get('none'), { textContent: text, hidden: !text });

/** Hides the results, and forgets what was searched. */
export function close_found() {
    show([]);
    report('');
    asked = '';
}

// Searches for a text, and returns whether the results are shown.
async function search(text) {
    asked = text;
    if (!text) { close_found(); return false; }
    const slow = setTimeout(() => { if (asked === text) report('searching …'); }, SOON);
    const places = await ask('find', text).finally(() => clearTimeout(slow));
    if (!places || asked !== text) return false;
    show(places);
    report(places.length > 0 ? '' : NONE);
    return true;
}

// Searches for the text in the field, unless that has begun, and promises whether the results are shown.
function look() {
    const text = get('goto').value.trim();
    if (text !== asked) shown = search(text);
    return shown;
}

async function press(event) {
    if (event.key === 'Escape') close_found();
    if (event.key === 'Enter' && await look() && found[active]) take(found[active]);
    const step = { ArrowDown: 1, ArrowUp: -1 }[event.key];
    if (!step || !found.length) return;
    event.preventDefault();
    mark((active + step + found.length) % found.length);
}

export function set_up_goto() {
    const field = get('goto');
    const look_if_here = () => { if (document.activeElement === field) look(); };
    Object.assign(field, { oninput: after_typing(look_if_here), onkeydown: press, onblur: close_found, onfocus: look });
    addEventListener('keydown', (event) => {
        if (event.key !== '/' || event.target.closest('input, select') || field.offsetParent === null) return;
        event.preventDefault();
        field.select();
    });
}
