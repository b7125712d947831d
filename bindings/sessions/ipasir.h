/* The interface of incremental solvers that IPASIR asks for. */
#ifndef IPASIR_H
#define IPASIR_H
#ifdef __cplusplus
extern "C" {
#endif
const char *ipasir_signature(void);
void *ipasir_init(void);
void ipasir_release(void *solver);
void ipasir_add(void *solver, int literal_or_zero);
void ipasir_assume(void *solver, int literal);
int ipasir_solve(void *solver);
int ipasir_val(void *solver, int literal);
int ipasir_failed(void *solver, int literal);
void ipasir_set_terminate(void *solver, void *state, int (*terminate)(void *state));
void ipasir_set_learn(void *solver, void *state, int max_length, void (*learn)(void *state, int *clause));
#ifdef __cplusplus
}
#endif
#endif
