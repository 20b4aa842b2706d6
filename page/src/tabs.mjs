// The row of tabs below the picture.

export class Tabs {
    constructor(chosen) {
        this.chosen = chosen;
        this.tabs = [...document.querySelectorAll('[role=tab]')];
        for (const tab of this.tabs) tab.addEventListener('click', () => this.choose(tab.dataset.tab));
        document.querySelector('[role=tablist]').addEventListener('keydown', event => this.#key(event));
    }

    choose(name) {
        for (const tab of this.tabs) {
            const here = tab.dataset.tab === name;
            tab.setAttribute('aria-selected', String(here));
            tab.tabIndex = here ? 0 : -1;
            document.getElementById(`panel-${tab.dataset.tab}`).hidden = !here;
        }
        this.chosen(name);
    }

    #key(event) {
        const here = this.tabs.indexOf(event.target);
        const place = { ArrowRight: (here + 1) % this.tabs.length, ArrowLeft: here - 1, Home: 0, End: -1 }[event.key];
        if (place === undefined) return;
        const next = this.tabs.at(place);
        this.choose(next.dataset.tab);
        next.focus();
        event.preventDefault();
    }
}
