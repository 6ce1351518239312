// Search, index, order and copying. Without it the page shows all tests, in the order of the listing.
"use strict";
{
    const byId = (id) => document.getElementById(id);
    const list = byId("/tests"), search = byId("/search"), order = byId("/order"), status = byId("/status");
    const articles = [...list.children];
    const cards = articles.map((article, at) => ({
        article, at, name: article.id, edges: article.querySelector(".edges").textContent, data: article.dataset,
        text: (article.id + " " + article.querySelector(".edges").textContent).toLowerCase(),
    }));
    const buttons = [...document.querySelectorAll("button[data-k]")];
    const chosen = {};

    const fits = (card, words) =>
        words.every((word) => card.text.includes(word)) &&
        Object.entries(chosen).every(([key, value]) => card.data[key].split(" ").includes(value));

    const show = () => {
        const words = search.value.toLowerCase().split(/\s+/).filter(Boolean);
        let count = 0;
        for (const card of cards) {
            const isShown = fits(card, words);
            card.article.hidden = !isShown;
            count += isShown;
        }
        const all = cards.length === 1 ? "1 test" : `${cards.length.toLocaleString("en")} tests`;
        status.textContent = count === cards.length ? all : `${count.toLocaleString("en")} of ${all}`;
        for (const button of buttons) button.setAttribute("aria-pressed", String(chosen[button.dataset.k] === button.dataset.v));
    };

    const verdicts = ["Always", "Sometimes", "Never", "none"];
    const number = (card, key) => Number(card.data[key] || -1);
    const byName = (one, two) => (one.name > two.name) - (two.name > one.name);
    const orders = {
        listed: (one, two) => one.at - two.at,
        name: byName,
        observation: (one, two) => verdicts.indexOf(one.data.o) - verdicts.indexOf(two.data.o) || number(two, "c") - number(one, "c"),
        seen: (one, two) => number(two, "c") - number(one, "c"),
        runs: (one, two) => number(two, "r") - number(one, "r"),
    };
    const sort = () => {
        const sorted = [...cards].sort((one, two) => orders[order.value](one, two) || one.at - two.at);
        list.append(...sorted.map((card) => card.article));
    };

    const clear = () => {
        search.value = "";
        for (const key of Object.keys(chosen)) delete chosen[key];
        show();
    };

    // A link to a test shows it, whatever is searched for.
    const target = () => {
        const article = byId(decodeURIComponent(location.hash.slice(1)));
        if (article && article.hidden) clear();
        if (article) article.scrollIntoView();
    };

    const callOf = (card) =>
        `diyone7 -arch ${document.body.dataset.arch} ${card.data.named ? `-name ${card.name} ` : ""}${card.edges}`;

    const copy = async (text) => {
        try {
            await navigator.clipboard.writeText(text);
        } catch {
            const area = document.createElement("textarea");
            area.value = text;
            document.body.append(area);
            area.select();
            document.execCommand("copy");
            area.remove();
        }
        status.textContent = `Copied: ${text}`;
    };

    search.addEventListener("input", show);
    search.form.addEventListener("submit", (event) => event.preventDefault());
    search.form.addEventListener("reset", () => setTimeout(() => { clear(); sort(); }));
    order.addEventListener("change", sort);
    for (const button of buttons) {
        button.addEventListener("click", () => {
            const { k, v } = button.dataset;
            if (chosen[k] === v) delete chosen[k];
            else chosen[k] = v;
            show();
        });
    }
    list.addEventListener("click", (event) => {
        const button = event.target.closest(".call button");
        if (!button) return;
        copy(callOf(cards.find((card) => card.article.contains(button))));
        button.focus();
    });
    addEventListener("hashchange", target);
    document.documentElement.classList.add("js");
    // (a browser may have kept what was typed)
    sort();
    show();
    if (location.hash) target();
}
