/* What the calls of the language are to Frama-C: any value, and a condition that holds wherever the program goes on. */

/*@ assigns \nothing; */
int nondet(void);

/*@ assigns \nothing;
    ensures condition; */
void assume(int condition);

/*@ assigns \nothing; */
int __VERIFIER_nondet_int(void);

/*@ assigns \nothing;
    ensures condition; */
void __VERIFIER_assume(int condition);
