/* A small text of the form in which genautomata writes tables: one automaton without a name, with a packed table. */

/* Vector translating external insn codes to internal ones.*/
static const unsigned char translate_0[] ATTRIBUTE_UNUSED = {
    0,     1,     2};

/* Comb vector for state transitions.  */
static const unsigned char transitions_0[] ATTRIBUTE_UNUSED = {
    1,     2,     0,     1,     0,     0,     3,     2};

/* Check vector for state transitions.  */
static const unsigned char check_0[] = {
    0,     0,     0,     2,     1,     2,     3,     3};

/* Base vector for state transitions.  */
static const unsigned char base_0[] = {
    0,     2,     3,     5};


#define DFA__ADVANCE_CYCLE 2

struct DFA_chip
{
  unsigned char automaton_state_0;
};

static int
internal_state_transition (int insn_code, struct DFA_chip *chip ATTRIBUTE_UNUSED)
{
  int temp ATTRIBUTE_UNUSED;

  switch (insn_code)
    {
    case 0: /* load */
    case 1: /* store */
    case 2: /* $advance_cycle */
      {

        temp = base_0 [chip->automaton_state_0] + translate_0 [insn_code];
        if (check_0 [temp] != chip->automaton_state_0)
          return internal_min_issue_delay (insn_code, chip);
        else
          chip->automaton_state_0 = transitions_0 [temp];
        return -1;
      }

    default:
      return -1;
    }
}
