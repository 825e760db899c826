:- module names.
:- interface.
:- type name ---> 'tab\tend' ; 'bell\aend' ; 'back\\slash' ; 'del\x7f\end' ; 'say "no"'.
:- pred name(name::out) is nondet.
:- implementation.
name('tab\tend').
name('bell\aend').
name('back\\slash').
name('del\x7f\end').
name('say "no"').
