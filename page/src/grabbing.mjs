// Taking hold of something with the pointer: a step of the picture, to move it or throw it away, and a source, to put it on a screen.

/** The pointer has to go so far before a press becomes a drag. */
const STILL = 5;
/** A step is thrown away where it is let go so far outside the picture. */
const OUTSIDE = 24;

/** Follows the pointer from a press to its end: when it becomes a drag, at each move, and at the end whether it was one. */
function follow(event, { begun = () => {}, moving, ended }) {
    const start = { x: event.clientX, y: event.clientY };
    let dragged = false;
    const move = now => {
        if (!dragged && Math.hypot(now.clientX - start.x, now.clientY - start.y) <= STILL) return;
        if (!dragged) begun();
        dragged = true;
        moving(now);
    };
    const stop = now => {
        removeEventListener('pointermove', move);
        removeEventListener('pointerup', stop);
        removeEventListener('pointercancel', stop);
        ended(now.type === 'pointerup' ? now : null, dragged);
    };
    addEventListener('pointermove', move);
    addEventListener('pointerup', stop);
    addEventListener('pointercancel', stop);
}

/** Steps of the picture, by their number above it or by the crossing itself. */
export function grabStep(picture) {
    const { strands, steps, root, app } = picture;
    /** Where a step let go here would stand, or null where it is thrown away. */
    const target = event => {
        const box = root.getBoundingClientRect();
        if (event.clientY < box.top - OUTSIDE || event.clientY > box.bottom + OUTSIDE) return null;
        const m = picture.measures;
        const at = Math.round((event.clientX - strands.getBoundingClientRect().left - m.left) / m.column);
        return picture.part.first + Math.min(Math.max(at, 0), picture.part.letters.length);
    };
    const markTarget = at => {
        const line = strands.querySelector('.drop');
        const x = at === null ? 0 : picture.measures.x(at - picture.part.first);
        line?.setAttribute('visibility', at === null ? 'hidden' : 'visible');
        line?.setAttribute('x1', x);
        line?.setAttribute('x2', x);
        root.classList.toggle('throwing', at === null);
    };
    const begin = event => {
        const held = event.target.closest('[data-at]');
        if (!held || event.button !== 0) return;
        event.preventDefault();
        const from = Number(held.dataset.at);
        follow(event, { begun: () => picture.mark(from), moving: now => markTarget(target(now)), ended: (now, dragged) => {
            root.classList.remove('throwing');
            strands.querySelector('.drop')?.setAttribute('visibility', 'hidden');
            if (!dragged) return chosen(picture, from);
            const { word } = app.state;
            const to = now ? target(now) : from;
            if (to === null) app.composing.remove(from);
            else app.composing.move(from, to > from ? to - 1 : to);
            if (app.state.word === word) app.show({});
        } });
    };
    strands.addEventListener('pointerdown', begin);
    steps.addEventListener('pointerdown', begin);
}

function chosen(picture, at) {
    picture.select(picture.app.ui.selected === at ? -1 : at);
    picture.steps.querySelector(`.chip[data-at="${at}"]`)?.focus();
}

/** Any source on the page can be put on any screen of it. */
export function grabSource(app) {
    const under = event => document.elementFromPoint(event.clientX, event.clientY)?.closest('[data-screen]');
    document.addEventListener('pointerdown', event => {
        const token = event.target.closest('[data-source]');
        if (!token || event.button !== 0) return;
        event.preventDefault();
        const copy = token.cloneNode(true);
        copy.classList.add('held');
        let marked = null;
        follow(event, { moving: now => {
            if (!copy.isConnected) document.body.append(copy);
            copy.style.transform = `translate(${now.clientX + 8}px, ${now.clientY + 8}px)`;
            marked?.classList.remove('target');
            marked = under(now) ?? null;
            marked?.classList.add('target');
        }, ended: (now, dragged) => {
            copy.remove();
            marked?.classList.remove('target');
            const screen = dragged && now ? under(now) : null;
            if (screen) app.putOnScreen(Number(token.dataset.source), Number(screen.dataset.screen), screen.closest('#screens') !== null);
        } });
    });
}
