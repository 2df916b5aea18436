(function () {
  var field = document.getElementById("filter"), count = document.getElementById("filter-count");
  var cards = Array.prototype.slice.call(document.querySelectorAll(".card"));
  function apply() {
    var wanted = field.value.trim().toLowerCase(), shown = 0;
    cards.forEach(function (card) {
      card.hidden = card.dataset.name.indexOf(wanted) < 0;
      shown += card.hidden ? 0 : 1;
    });
    count.textContent = wanted ? shown + " of " + cards.length : "";
  }
  if (field) {
    field.closest(".filter").hidden = false;
    field.addEventListener("input", apply);
  }
  var closed = [];
  window.addEventListener("beforeprint", function () {
    closed = Array.prototype.slice.call(document.querySelectorAll("details:not([open])"));
    closed.forEach(function (part) { part.open = true; });
  });
  window.addEventListener("afterprint", function () {
    closed.forEach(function (part) { part.open = false; });
  });
})();
