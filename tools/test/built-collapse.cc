/* A small text of the form in which genautomata writes tables under `ndfa` and `collapse-ndfa`. */

/* Vector translating external insn codes to internal ones.*/
static const unsigned char translate_0[] ATTRIBUTE_UNUSED = {
    0,     1,     2};

/* Vector for state transitions.  */
static const unsigned char transitions_0[] ATTRIBUTE_UNUSED = {
    1,     0,     0,     2,     4,     3,     4,     0,     2,     2, 
    0,     3};


#define DFA__ADVANCE_CYCLE 1


#define NDFA__COLLAPSE 2

struct DFA_chip
{
  unsigned char automaton_state_0;
};

static int
internal_state_transition (int insn_code, struct DFA_chip *chip ATTRIBUTE_UNUSED)
{
  int temp ATTRIBUTE_UNUSED;

  switch (insn_code)
    {
    case 0: /* load */
    case 1: /* $advance_cycle */
    case 2: /* $collapse_ndfa */
      {

        temp = transitions_0 [translate_0 [insn_code] + chip->automaton_state_0 * 3];
        if (temp >= 4)
          return internal_min_issue_delay (insn_code, chip);
        else
          chip->automaton_state_0 = temp;
        return -1;
      }

    default:
      return -1;
    }
}
