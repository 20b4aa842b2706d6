"""How fast the page is: nothing else runs beside these tests."""
from in_browser.page import PageTest


class Speed(PageTest):
    def test_change_answers_within_50_ms(self):
        """At D64 with 4,096 letters. The limit holds for the fastest quarter of the changes: the machine may be busy with other work."""
        self.rig("D", 64)
        self.word(self.long_word(64, 4095))
        calls, pressed, typed = self.driver.execute_async_script(
            """const done = arguments[0], field = document.getElementById('word'), rows = [[], [], []];
            const timed = change => {
                const start = performance.now();
                change();
                document.body.getBoundingClientRect();
                return performance.now() - start;
            };
            (async () => {
                for (let k = 0; k < 24; k++) {
                    rows[1].push(timed(() => app.composing.add(1 + k * 11 % 64)));
                    rows[0].push(app.times.calls);
                    app.store.undo();
                    await new Promise(next => setTimeout(next, 5));
                    field.value = field.value.slice(0, -1) + (k % 6 + 1);
                    rows[2].push(timed(() => field.dispatchEvent(new Event('input', { bubbles: true }))));
                    await new Promise(next => setTimeout(next, 5));
                }
                done(rows.map(row => row.sort((a, b) => a - b)));
            })();""")
        for name, row in [("library's calls of a change", calls), ("a step added, calls and drawing", pressed), ("a key typed, calls and drawing", typed)]:
            print(f"\npage, D64 with 4,096 letters, {name}: {row[0]:.1f} ms at least, {row[6]:.1f} ms in a quarter, {row[12]:.1f} ms in half of {len(row)} runs")
            self.assertLess(row[6], 50)
        self.assertLess(self.js("return document.querySelectorAll('#strands *').length"), 2000)

    def test_change_takes_a_frame_of_an_idle_core(self):
        """At D64 with 4,096 letters: what the page's thread works for a change, painting included, by its own clock, which stands while
        others have the core."""
        self.press("What is proved")
        self.rig("D", 64)
        self.word(self.long_word(64, 4095))
        self.driver.execute_cdp_cmd("Performance.enable", {"timeDomain": "threadTicks"})
        worked = lambda: {entry["name"]: entry["value"] for entry in self.driver.execute_cdp_cmd("Performance.getMetrics", {})["metrics"]}["TaskDuration"]
        each = []
        for _ in range(6):
            start = worked()
            changes = self.driver.execute_async_script(
                """const done = arguments[0], frame = () => new Promise(next => requestAnimationFrame(() => setTimeout(next)));
                (async () => {
                    for (let k = 0; k < 8; k++) {
                        app.composing.add(1 + k * 11 % 64);
                        await frame();
                        app.store.undo();
                        await frame();
                    }
                    done(16);
                })();""")
            each.append((worked() - start) * 1000 / changes)
        self.driver.execute_cdp_cmd("Performance.disable", {})
        print(f"\npage, D64 with 4,096 letters, the thread's own time for a change: {min(each):.1f} to {max(each):.1f} ms")
        # The goal is 16 ms on an idle core. Twice that is asserted, since others that want the cores share their caches.
        self.assertLess(min(each), 32)
