"""Scripts of suppliers that join, for the program `trial_script`, and what it prints."""
from tests.harness.hub_scripts import Play, despatch, interchange, order
from tests.harness.register_texts import GAMMA, RETAILER

KEY_OF_GAMMA = "gamma-key-1"
PALLET_OF_GAMMA = "376123460000000015"
ORDER_OF_GAMMA = interchange(RETAILER, "1020", order(supplier=GAMMA))


class Joining(Play):
    """A script in which suppliers join, and what it prints."""

    def join(self, supplier, key, prefixes, told, who=RETAILER, outcome="done", with_key=None):
        line = f"join {supplier} {key} {','.join(prefixes)}"
        return self.ask(who, line, outcome, told + "\n", refused=told.startswith("refused"), key=with_key)

    def gamma_joins(self, told="accepted", outcome="done"):
        return self.join(GAMMA, KEY_OF_GAMMA, ["7612345", "7612346"], told, outcome=outcome)

    def as_gamma(self, line, outcome, body, payload=None):
        return self.ask(GAMMA, line, outcome, body, payload, key=KEY_OF_GAMMA)

    def is_unknown(self, supplier):
        """The retailer asks for the status of a supplier that is not registered."""
        return self.ask(RETAILER, f"status-of {supplier}", "unknown", "unknown\n")

    def order_of_gamma(self, told):
        return self.upload(RETAILER, ORDER_OF_GAMMA, "interchange 1020 messages 1", f"1 ORDERS {told}")

    def gamma_despatches(self):
        text = interchange(GAMMA, "S1", despatch("DA1", PALLET_OF_GAMMA, 12, supplier=GAMMA))
        return self.upload(GAMMA, text, "interchange S1 messages 1", "1 DESADV accepted", key=KEY_OF_GAMMA)
