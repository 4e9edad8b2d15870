//! All trials on the reference and the speed baseline, compared call by call.
use stringhut::fast::Fast;
use stringhut::reference::Reference;
use stringhut::trial::both::Both;

stringhut::trials!(Both::new(Reference, Fast));
