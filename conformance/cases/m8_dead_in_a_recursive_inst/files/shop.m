:- module shop.
:- interface.
:- implementation.
:- import_module list.
:- inst odd ---> [] ; [ground | even].
:- inst even ---> [] ; [dead | odd].
:- pred takes(list(int)::in(odd)) is det.
takes(_).
