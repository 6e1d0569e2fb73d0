// The sizes: the file's pieces, and the functions and variables inside them, as areas in proportion to their bytes.
import { count, get, in_bytes, make, put_text, visible } from './dom.js';
import { readable_on } from './map.js';
import { ask, shown_file } from './reader.js';

// In pixels: an item's least area, the heights of the line above and of a piece's title, and a title's least box.
const LEAST = 160, LINE = 34, TITLE = 18, WIDE = 34, HIGH = 14;

// Lays items out in a box: it is cut across its longer side into two, each for about half of the bytes, and so on.
function* placed(items, box) {
    if (items.length === 1) yield { item: items[0], ...box };
    if (items.length < 2) return;
    const all = items.reduce((sum, { size }) => sum + size, 0),
        [side, place] = box.wide > box.high ? ['wide', 'x'] : ['high', 'y'];
    let half = items[0].size, at = 1;
    while (at < items.length - 1 && half + items[at].size / 2 < all / 2) half += items[at++].size;
    const cut = box[side] * half / all;
    yield* placed(items.slice(0, at), { ...box, [side]: cut });
    yield* placed(items.slice(at), { ...box, [place]: box[place] + cut, [side]: box[side] - cut });
}

/** Returns the panel with the areas. Each is a link to its section, segment or symbol. */
export async function area_panel() {
    const { size } = shown_file, wide = get('panel').clientWidth || innerWidth,
        high = Math.max(get('panel').clientHeight - LINE, 120);
    const areas = make('div', { class: 'areas', role: 'group', 'aria-label': 'Sizes' });
    const add = ({ item, ...box }, kind = 'gap', to = 'layout', given = {}) => {
        const said = `${visible(item.title)}: ${in_bytes(item.size)}, `
            + `${(100 * item.size / size).toFixed(1)} % of the file`;
        const link = make('a', { href: `#${item.to ?? to}`, 'aria-label': said, tabindex: areas.firstChild ? -1 : 0,
            ...given });
        const [left, top, width, height] = [box.x / wide, box.y / high, box.wide / wide, box.high / high]
            .map((part) => `${100 * part}%`);
        Object.assign(link.style, { left, top, width, height }).setProperty('--tint', `var(--${kind})`);
        link.style.setProperty('--on', readable_on('var(--tint)'));
        if (box.wide > WIDE && box.high > HIGH)
            link.append(make('span', {}, put_text(make('b'), item.title), ` ${count(item.size)}`));
        areas.append(link);
    };
    for (const place of placed(await ask('sizes', LEAST * size / (wide * high)), { x: 0, y: 0, wide, high })) {
        const { kind, to, inside = [] } = place.item;
        const box = { x: place.x + 2, y: place.y + TITLE, wide: place.wide - 4, high: place.high - TITLE - 2 };
        add(place, kind);
        if (box.wide > WIDE && box.high > HIGH)
            for (const small of placed(inside, box)) add(small, kind, to, { class: 'inside' });
    }
    // (what is below the pointer or has the focus is named beside it: many have no room for their names)
    const tip = make('output', { class: 'tip', hidden: true }), { style } = tip;
    const show = (link) => {
        tip.hidden = !link;
        if (!link) return;
        const { offsetLeft: left, offsetTop: top, offsetWidth, offsetHeight } = link;
        put_text(tip, link.ariaLabel);
        const is_right = left + offsetWidth / 2 > areas.clientWidth / 2, below = top + offsetHeight;
        style.left = is_right ? 'auto' : `${left}px`;
        style.right = is_right ? `${areas.clientWidth - left - offsetWidth}px` : 'auto';
        style.top = `${below + tip.offsetHeight > areas.clientHeight ? Math.max(top - tip.offsetHeight, 0) : below}px`;
    };
    for (const type of ['pointerover', 'focusin', 'pointerleave', 'focusout'])
        areas.addEventListener(type, ({ target }) => show(type !== 'focusout' && target.closest('a')));
    areas.addEventListener('keydown', ({ key, target: { nextSibling, previousSibling } }) => {
        const link = { ArrowRight: nextSibling, ArrowLeft: previousSibling, Home: areas.firstChild,
            End: tip.previousSibling }[key];
        if (!link || link === tip) return;
        link.focus();
        show(link); // (in a window in the background no event reports the focus)
    });
    areas.append(tip);
    const said = `${in_bytes(size)}, where the map draws them. Functions and variables are symbols with a size. `
        + 'Names of C++ are not proved.';
    return [make('p', { class: 'others' }, said), areas];
}
